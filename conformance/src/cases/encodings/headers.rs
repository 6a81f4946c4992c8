//! All 65,536 headers with short bodies, and each with a body of exactly its Length.

use crate::{
    cases::inputs::samples::GOOD_AFIS,
    compare::{Checked, Harness, Input},
    random::Random,
};

/// Sizes of the short bodies: none, one octet, and the ends of fields in both families.
const SIZES: [usize; 7] = [0, 1, 8, 12, 14, 22, 26];

pub fn all(harness: &mut Harness, random: &mut Random) -> Checked {
    for afi in GOOD_AFIS {
        for header in 0..=u16::MAX {
            with_bodies(harness, random, afi, header.to_be_bytes())?;
        }
    }
    Ok(())
}

fn with_bodies(harness: &mut Harness, random: &mut Random, afi: u16, header: [u8; 2]) -> Checked {
    // Zeros are wildcards; an octet of the family's bits now and then makes an address.
    let bits = if afi == 1 { 32 } else { 128 };
    let mut octets = [0; 2 + 256];
    octets[..2].copy_from_slice(&header);
    if header[1] % 2 == 1 {
        let place = [10, 11, 15, 19, 14, 31][random.below(6)];
        octets[place] = bits;
    }
    // A FEC element, where the type has one.
    if let Some(place) = [(0x43, 10), (0x47, 14)].iter().find_map(|(it, place)| (*it == header[0]).then_some(*place)) {
        octets[place..place + 4].copy_from_slice(&[6, 0, afi as u8, bits / 8]);
    }
    for size in SIZES {
        compare(harness, afi, Input::cut(&octets, 2 + size))?;
    }
    compare(harness, afi, Input::cut(&octets, 2 + usize::from(header[1])))
}

fn compare(harness: &mut Harness, afi: u16, input: Input) -> Checked {
    harness.inputs += 1;
    harness.nlri_read(afi, input)?;
    harness.walk(afi, harness.any_mode(), input).map(|_| ())
}
