//! Writing NLRIs: every output size, every address size, junk in fields that the type lacks, good and bad keys. Those that
//! only FEC elements have stand in `fecs/`.

use crate::{
    cases::inputs::{
        near,
        samples::{all_nlris, Sample, BAD_AFIS, GOOD_AFIS},
    },
    compare::{Checked, Harness, Input},
    ffi::{Address, Nlri, RouteDistinguisher},
    random::Random,
};

pub fn all(harness: &mut Harness, random: &mut Random) -> Checked {
    for sample in all_nlris() {
        of_sample(harness, random, &sample)?;
        if !sample.key.is_empty() {
            keys(harness, &sample)?;
        }
    }
    Ok(())
}

/// What is asked of every sample, whether it is written or not.
pub fn of_sample(harness: &mut Harness, random: &mut Random, sample: &Sample) -> Checked {
    outputs(harness, random, sample)?;
    address_sizes(harness, sample)?;
    route_types(harness, random, sample)
}

/// Every output size, with the fields as read and with junk wherever it does not count.
fn outputs(harness: &mut Harness, random: &mut Random, sample: &Sample) -> Checked {
    for room in 0..=sample.octets.len() + 2 {
        harness.inputs += 2;
        harness.nlri_write(sample.afi, sample.nlri, &sample.key, &sample.fec, room)?;
        let (nlri, key, fec) = with_junk(random, sample);
        harness.nlri_write(sample.afi, nlri, &key, &fec, room)?;
    }
    for room in [100, 255, 4_096] {
        harness.nlri_write(sample.afi, sample.nlri, &sample.key, &sample.fec, room)?;
    }
    Ok(())
}

/// The sample with junk in the fields that its type lacks and in the octets past an address's size.
fn with_junk(random: &mut Random, sample: &Sample) -> (Nlri, Vec<u8>, Vec<u8>) {
    let (mut nlri, read) = (fields(random), sample.nlri);
    let route_type = read.route_type;
    nlri.route_type = route_type;
    if sample.key.is_empty() {
        nlri.distinguisher = read.distinguisher;
    }
    if matches!(route_type, 2 | 6 | 7 | 0x47) {
        nlri.source_as = read.source_as;
    }
    if matches!(route_type, 3 | 5..=7) {
        nlri.source = padded(random, read.source);
        nlri.group = padded(random, read.group);
    }
    if matches!(route_type, 1 | 3 | 4 | 0x43 | 0x44) {
        nlri.originator = padded(random, read.originator);
    }
    let [key, fec] = [&sample.key, &sample.fec].map(|octets| match octets.is_empty() {
        true => (0..random.below(40)).map(|_| random.octet()).collect(),
        false => octets.clone(),
    });
    (nlri, key, fec)
}

/// The address with junk past its size.
fn padded(random: &mut Random, address: Address) -> Address {
    let mut octets = random.array::<16>();
    let size = usize::from(address.size);
    octets[..size].copy_from_slice(&address.octets[..size]);
    Address { octets, size: address.size }
}

/// Every value of each size octet, and pairs of bad sizes.
fn address_sizes(harness: &mut Harness, sample: &Sample) -> Checked {
    let room = sample.octets.len();
    for size in 0..=255 {
        let choices: [fn(&mut Nlri) -> &mut Address; 3] =
            [|nlri| &mut nlri.source, |nlri| &mut nlri.group, |nlri| &mut nlri.originator];
        for address in choices {
            let mut nlri = sample.nlri;
            address(&mut nlri).size = size;
            harness.inputs += 1;
            harness.nlri_write(sample.afi, nlri, &sample.key, &sample.fec, room + 16)?;
            harness.nlri_write(sample.afi, nlri, &[], &[], room)?;
        }
    }
    Ok(())
}

/// The sample's fields under every route type and AFI.
fn route_types(harness: &mut Harness, random: &mut Random, sample: &Sample) -> Checked {
    for route_type in 0..=255 {
        let nlri = Nlri { route_type, ..sample.nlri };
        let room = random.below(90);
        for afi in GOOD_AFIS.into_iter().chain(BAD_AFIS) {
            harness.inputs += 1;
            harness.nlri_write(afi, nlri, &sample.key, &sample.fec, room)?;
        }
    }
    Ok(())
}

/// Every truncation and single-octet change of a key, octets after it, and a bad originator beside a bad key.
fn keys(harness: &mut Harness, sample: &Sample) -> Checked {
    let (afi, nlri, room) = (sample.afi, sample.nlri, sample.octets.len());
    let mut bad_originator = nlri;
    bad_originator.originator.size = 5;
    for size in 0..=sample.key.len() {
        harness.nlri_write(afi, nlri, Input::cut(&sample.key, size), &[], room)?;
        harness.nlri_write(afi, bad_originator, Input::cut(&sample.key, size), &[], 0)?;
    }
    for extra in [1, 2, 16, 254, 255, 256, 512, 65_536] {
        let key = [sample.key.clone(), vec![0; extra]].concat();
        harness.nlri_write(afi, nlri, &key, &[], room + 600)?;
    }
    for place in 0..sample.key.len() {
        for value in 0..=255 {
            let mut key = sample.key.clone();
            key[place] = value;
            harness.inputs += 1;
            harness.nlri_write(afi, nlri, &key, &[], room)?;
        }
    }
    Ok(())
}

/// Random fields with mostly allowed sizes.
pub fn fields(random: &mut Random) -> Nlri {
    Nlri {
        distinguisher: RouteDistinguisher { octets: random.array() },
        source: address(random),
        group: group(random),
        originator: address(random),
        source_as: random.number() as u32,
        route_type: match random.below(12) {
            route_type @ 0..=8 => route_type as u8,
            new => [0x43, 0x44, 0x47][new - 9],
        },
    }
}

fn address(random: &mut Random) -> Address {
    let size = if random.once_in(16) { random.octet() } else { random.pick(&[0, 4, 16]) };
    Address { octets: random.array(), size }
}

/// About a quarter of the groups are SSM.
fn group(random: &mut Random) -> Address {
    let mut group = address(random);
    if random.once_in(4) {
        let size = if random.once_in(2) { 4 } else { 16 };
        near::make_specific(random, &mut group.octets[..size]);
        group.size = size as u8;
    }
    group
}

/// One random writing call.
pub fn random_case(harness: &mut Harness, random: &mut Random) -> Checked {
    let afi = near::afi(random);
    let mut nlri = fields(random);
    // Sizes that suit the family, most of the time.
    let size = if afi == 2 { 16 } else { 4 };
    for address in [&mut nlri.source, &mut nlri.group] {
        if !random.once_in(4) {
            address.size = size;
        }
    }
    let (mut key, mut fec) = lent(random, afi, nlri.route_type);
    if random.once_in(3) {
        near::disturb_nlri(random, &mut key);
        near::disturb(random, &mut fec);
    }
    let room = random.below(if nlri.route_type > 0x40 { 300 } else { 96 });
    harness.nlri_write(afi, nlri, &key, &fec, room)
}

/// A key and a FEC element that suit the route type, mostly; both are lent whatever it has.
pub fn lent(random: &mut Random, afi: u16, route_type: u8) -> (Vec<u8>, Vec<u8>) {
    let key = match route_type {
        0x44 => near::mldp_key(random, afi),
        _ => near::key(random, afi),
    };
    (key, near::nest(random, afi))
}
