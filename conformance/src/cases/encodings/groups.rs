//! Group classes by the standard range: all leading octets that decide, every size, and random groups.

use crate::{
    cases::inputs::{
        lists::EMPTY,
        samples::{BAD_AFIS, GOOD_AFIS},
    },
    compare::{Checked, Harness, Input},
    random::Random,
};

pub fn all(harness: &mut Harness, random: &mut Random) -> Checked {
    leading_octets(harness, random)?;
    ssm_changes(harness)?;
    for group in [[0xFF; 300], [0xE8; 300], [0; 300]] {
        for afi in GOOD_AFIS.into_iter().chain(BAD_AFIS) {
            for size in 0..=300 {
                harness.group_class(afi, EMPTY, Input::cut(&group, size))?;
            }
        }
    }
    // Sizes that are 4 and 16 in their low 16 bits.
    for (afi, size) in [(1, 65_540), (2, 65_552)] {
        harness.group_class(afi, EMPTY, &vec![0xFF; size])?;
        harness.group_class(afi, EMPTY, &vec![0xE8; size])?;
    }
    Ok(())
}

/// Every single-octet change of 232.0.0.0 and of FF3x::, for each x.
fn ssm_changes(harness: &mut Harness) -> Checked {
    let ipv4 = (1, vec![232, 0, 0, 0]);
    let ipv6 = (0x30..=0x3F).map(|second| (2, [&[0xFF, second][..], &[0; 14]].concat()));
    for (afi, mut group) in std::iter::once(ipv4).chain(ipv6) {
        for place in 0..group.len() {
            let kept = group[place];
            for value in 0..=255 {
                group[place] = value;
                harness.group_class(afi, EMPTY, &group)?;
            }
            group[place] = kept;
        }
    }
    Ok(())
}

/// Both families with every pair of leading octets; IPv6 also with every third and fourth octet after FF3x.
fn leading_octets(harness: &mut Harness, random: &mut Random) -> Checked {
    for pair in 0..=u16::MAX {
        let [first, second] = pair.to_be_bytes();
        harness.group_class(1, EMPTY, &[first, second, random.octet(), random.octet()])?;
        let mut group = random.array::<16>();
        group[..4].copy_from_slice(&[first, second, 0, 0]);
        harness.group_class(2, EMPTY, &group)?;
        group[..2].copy_from_slice(&[0xFF, 0x30 | second & 0x0F]);
        group[2..4].copy_from_slice(&[first, second]);
        harness.group_class(2, EMPTY, &group)?;
    }
    Ok(())
}
