//! Octets near to well-formed ones: composed from fields, then now and then disturbed.

use super::samples::{fec, holding, nlris, Sample, GOOD_AFIS};
use crate::random::Random;

/// Octets at which the rules turn.
const TELLING: [u8; 20] = [0, 1, 2, 3, 4, 5, 6, 7, 8, 9, 12, 16, 24, 32, 33, 64, 96, 127, 128, 255];

pub fn afi(random: &mut Random) -> u16 {
    match random.below(24) {
        0 => random.pick(&[0, 3, 256, 257, 258, 512, 65_535]),
        _ => random.pick(&GOOD_AFIS),
    }
}

/// A whole NLRI of the family; mostly well-formed.
pub fn nlri(random: &mut Random, afi: u16) -> Vec<u8> {
    let route_type = random.pick(&[1, 2, 3, 3, 3, 4, 4, 4, 5, 6, 7, 0x43, 0x44, 0x47]);
    of_type(random, afi, route_type)
}

/// An NLRI of one type; mostly well-formed.
pub fn of_type(random: &mut Random, afi: u16, route_type: u8) -> Vec<u8> {
    let body = body(random, afi, route_type);
    [&[route_type, body.len() as u8], &body[..]].concat()
}

/// Route types that no document names.
pub const UNKNOWN: [u8; 10] = [0, 8, 9, 10, 0x42, 0x45, 0x46, 0x48, 0x80, 255];

/// A whole NLRI of an unknown type, mostly short.
pub fn unknown(random: &mut Random) -> Vec<u8> {
    let length = match random.below(8) {
        0 => random.below(256),
        1..=3 => 0,
        _ => random.below(24),
    };
    [&[random.pick(&UNKNOWN), length as u8], &random.octets(length)[..]].concat()
}

/// What a run may hold: an NLRI, now and then of an unknown type.
pub fn item(random: &mut Random, afi: u16) -> Vec<u8> {
    match random.once_in(12) {
        true => unknown(random),
        false => nlri(random, afi),
    }
}

fn body(random: &mut Random, afi: u16, route_type: u8) -> Vec<u8> {
    let distinguisher = random.octets(8);
    let source_as = random.octets(4);
    let wildcards = route_type == 3;
    let (source, mut group) = (customer(random, afi, wildcards), customer(random, afi, wildcards));
    if let (true, [_, group @ ..]) = (random.once_in(4), &mut group[..]) {
        make_specific(random, group);
    }
    let originator = originator(random);
    match route_type {
        1 => [distinguisher, originator].concat(),
        2 => [distinguisher, source_as].concat(),
        3 => [distinguisher, source, group, originator].concat(),
        4 => [key(random, afi), originator].concat(),
        0x43 => [distinguisher, nest(random, afi), originator].concat(),
        0x44 => [mldp_key(random, afi), originator].concat(),
        0x47 => [distinguisher, source_as, nest(random, afi)].concat(),
        5 => [distinguisher, source, group].concat(),
        _ => [distinguisher, source_as, source, group].concat(),
    }
}

/// The key of a Leaf, seldom of a type that it may not have.
pub fn key(random: &mut Random, afi: u16) -> Vec<u8> {
    let allowed = [1, 2, 3, 3, 3];
    let route_type = if random.once_in(16) { random.pick(&[5, 6, 7, 8]) } else { random.pick(&allowed) };
    of_type(random, afi, route_type)
}

/// The key of an mLDP Leaf, seldom of a type that it may not have.
pub fn mldp_key(random: &mut Random, afi: u16) -> Vec<u8> {
    let route_type = if random.once_in(16) { random.pick(&[1, 3, 0x45, 0x47]) } else { 0x43 };
    of_type(random, afi, route_type)
}

/// A FEC element of an NLRI with others inside it; seldom too many, or one of another type, family or form.
pub fn nest(random: &mut Random, afi: u16) -> Vec<u8> {
    let depth = random.pick(&[1, 1, 1, 2, 2, 3, 4, 4, 5]);
    let size = random.below(9);
    let mut opaque = random.octets(size);
    for level in (0..depth).rev() {
        let fec_type = if random.once_in(48) { random.octet() } else { random.pick(&[6, 7, 8]) };
        let family = match level {
            0 if !random.once_in(32) => afi.min(2) as u8,
            _ => random.pick(&[1, 2]),
        };
        let element = fec(fec_type, family, &opaque);
        opaque = match level {
            0 => element,
            _ => holding(random.pick(&[7, 8]), &element),
        };
        if random.once_in(64) {
            edit(random, &mut opaque);
        }
    }
    opaque
}

/// A length octet and its address; seldom of another length.
fn customer(random: &mut Random, afi: u16, wildcards: bool) -> Vec<u8> {
    let bits: u8 = match random.below(40) {
        0 => random.pick(&TELLING),
        1 => 0,
        2..=13 if wildcards => 0,
        _ if afi == 2 => 128,
        _ => 32,
    };
    let octets = random.octets(usize::from(bits).div_ceil(8));
    [&[bits], &octets[..]].concat()
}

/// Makes an address an SSM group, seldom one right beside the range.
pub fn make_specific(random: &mut Random, group: &mut [u8]) {
    let beside = random.once_in(8);
    match group {
        [first, _, _, _] => *first = if beside { random.pick(&[231, 233]) } else { 232 },
        [first, second, third, fourth, ..] => {
            [*first, *second] =
                [0xFF, if beside { random.pick(&[0x2F, 0x3F, 0x40]) } else { 0x30 | random.octet() >> 4 }];
            [*third, *fourth] = [0, u8::from(beside && *second == 0x3F)];
        }
        _ => {}
    }
}

fn originator(random: &mut Random) -> Vec<u8> {
    let size = if random.once_in(24) { random.below(20) } else { random.pick(&[4, 16]) };
    random.octets(size)
}

/// Well-formed NLRIs of every type, one after the other, cut at exactly `size` octets.
pub fn run_of(random: &mut Random, afi: u16, size: usize) -> Vec<u8> {
    run_among(random, &nlris(if afi == 1 { 1 } else { 2 }), size)
}

/// The same with these NLRIs.
pub fn run_among(random: &mut Random, samples: &[Sample], size: usize) -> Vec<u8> {
    let mut run = Vec::with_capacity(size + 100);
    while run.len() < size {
        run.extend_from_slice(&samples[random.below(samples.len())].octets);
    }
    run.truncate(size);
    run
}

/// So many NLRIs one behind the other, of which about one in `disturbed` is disturbed.
pub fn joined(
    random: &mut Random,
    count: usize,
    disturbed: usize,
    mut nlri: impl FnMut(&mut Random) -> Vec<u8>,
) -> Vec<u8> {
    let mut run = Vec::new();
    for _ in 0..count {
        let mut octets = nlri(random);
        if random.once_in(disturbed) {
            disturb_nlri(random, &mut octets);
        }
        run.extend(octets);
    }
    run
}

/// A PMSI Tunnel attribute; mostly well-formed.
pub fn attribute(random: &mut Random) -> Vec<u8> {
    let tunnel_type = tunnel_type(random);
    [&[random.octet(), tunnel_type], &random.octets(3)[..], &identifier(random, tunnel_type)].concat()
}

pub fn tunnel_type(random: &mut Random) -> u8 {
    match random.below(16) {
        0 => random.octet(),
        1 => random.pick(&[8, 9, 10, 12]),
        _ => random.pick(&[0, 1, 2, 2, 3, 4, 5, 6, 7, 7, 11]),
    }
}

/// An identifier for the tunnel type; seldom of another form.
pub fn identifier(random: &mut Random, tunnel_type: u8) -> Vec<u8> {
    let size = match tunnel_type {
        _ if random.once_in(16) => random.below(71),
        0 => 0,
        1 => 12,
        3..=5 => random.pick(&[8, 8, 32, 20]),
        6 => random.pick(&[4, 16]),
        11 => random.pick(&[7, 19]),
        _ => return element(random, tunnel_type),
    };
    random.octets(size)
}

/// A FEC element; seldom of a type or family that does not suit.
fn element(random: &mut Random, tunnel_type: u8) -> Vec<u8> {
    let fec_type = match (random.below(12), tunnel_type) {
        (0, _) => random.pick(&[5, 6, 7, 8, 9]),
        (_, 2) => 6,
        _ => random.pick(&[7, 8]),
    };
    let family = random.pick(&[1, 2]);
    let opaque = random.below(if family == 1 { 51 } else { 39 });
    let opaque = random.octets(opaque);
    let mut element = fec(fec_type, family, &opaque);
    if random.once_in(24) {
        // The other family over the same root.
        element[2] = 3 - family;
    }
    element
}

/// Half the time nothing, else one to three edits.
pub fn disturb(random: &mut Random, octets: &mut Vec<u8>) {
    if random.once_in(2) {
        return;
    }
    for _ in 0..=random.below(3) {
        edit(random, octets);
    }
}

/// As `disturb`; half the time the Length field is put right again, so that the fault lies deeper.
pub fn disturb_nlri(random: &mut Random, octets: &mut Vec<u8>) {
    disturb(random, octets);
    if random.once_in(2) && octets.len() >= 2 {
        octets[1] = (octets.len() - 2) as u8;
    }
}

fn edit(random: &mut Random, octets: &mut Vec<u8>) {
    let place = random.below(octets.len() + 1);
    let octet = if random.once_in(2) { random.octet() } else { random.pick(&TELLING) };
    match random.below(6) {
        0 => octets.truncate(place),
        1 => octets.push(octet),
        2 => octets.insert(place, octet),
        _ if place == octets.len() => {}
        3 => drop(octets.remove(place)),
        _ => octets[place] = octet,
    }
}
