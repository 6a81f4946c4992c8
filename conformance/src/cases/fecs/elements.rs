//! The route types of mLDP customers, and FEC elements that hold others (RFC 7441; RFC 6512; document 02, W-207): examples with
//! their answers, elements one to six deep changed and cut everywhere, both families at each depth, keys of every type, and
//! writers about the longest body.

use super::examples::{examples, join, s_pmsi, Example, LISTED, LISTED_TEXT};
use crate::{
    cases::{
        document::in_papers,
        encodings::mutations::changes_by,
        inputs::{
            near,
            samples::{address, all_nlris, fec, holding, mldp, Sample, BAD_AFIS, GOOD_AFIS},
        },
    },
    compare::{Checked, Harness, Input},
    ffi::{Nlri, RouteDistinguisher},
    hexadecimal::octets,
    random::Random,
};

/// The route types of mLDP customers.
const MLDP_TYPES: [u8; 3] = [0x43, 0x44, 0x47];

/// Random NLRIs: so many, and one more for so many random cases.
const ROUNDS: u64 = 4_000;
const CASES_A_ROUND: u64 = 60;

/// Differences of an octet where not all are tried.
const DIFFERENCES: [u8; 8] = [1, 2, 3, 4, 8, 0x0F, 0x80, 0xFF];

pub fn all(harness: &mut Harness, random: &mut Random, cases: u64) -> Checked {
    for example in examples() {
        let nlri = example.nlri();
        let shows = format!("document 02, W-207, {}", example.shows);
        in_papers(shows, harness.nlri_reading(example.afi, &nlri)?.number, example.number)?;
        harness.read_all_ways(example.afi, &nlri)?;
        harness.walk_by_steps(example.afi, &nlri)?;
        harness.nlri_round_trip(example.afi, &nlri)?;
        attributes(harness, &example)?;
    }
    let listed = harness.second.listing(&[], &octets(LISTED));
    in_papers("document 02, W-207, the listing".into(), listed, LISTED_TEXT.to_string())?;
    for afi in GOOD_AFIS {
        order_of_refusals(harness, afi)?;
        bodies(harness, afi)?;
        keys(harness, random, afi)?;
        families(harness, afi)?;
        openings(harness, random, afi)?;
        inside(harness, afi)?;
    }
    every_depth(harness)?;
    for round in 0..ROUNDS + cases / CASES_A_ROUND {
        any_nlri(harness, random, round)?;
    }
    Ok(())
}

/// The element of an example's 0x47 body in an attribute, whose opaque values are not read.
fn attributes(harness: &mut Harness, example: &Example) -> Checked {
    if let (0x47, Some(element @ [fec_type, ..])) = (example.route_type, example.body.get(12..)) {
        let tunnel_type = if *fec_type == 6 { 2 } else { 7 };
        harness.attribute_round_trip(&[&[0, tunnel_type, 0, 0, 16], element].concat())?;
    }
    Ok(())
}

/// The fields of a route type of mLDP customers.
fn fields(route_type: u8, originator: usize) -> Nlri {
    let mut originator_field = address(&[10; 16]);
    originator_field.size = originator as u8;
    Nlri {
        distinguisher: RouteDistinguisher { octets: [1, 2, 3, 4, 5, 6, 7, 8] },
        originator: originator_field,
        source_as: 0x0102_0304,
        route_type,
        ..Default::default()
    }
}

/// An element with other octets in its opaque value, so that it has this size.
fn sized(afi: u16, size: usize) -> Vec<u8> {
    let bare = fec(6, afi as u8, &[]).len();
    fec(6, afi as u8, &vec![1; size.saturating_sub(bare)])
}

/// Good and bad arguments of each kind, all together.
fn order_of_refusals(harness: &mut Harness, afi: u16) -> Checked {
    let family = afi as u8;
    let good = fec(6, family, &[]);
    let too_deep = (0..5).fold(good.clone(), |element, _| fec(7, family, &holding(8, &element)));
    let long_deep = fec(6, family, &[&[7][..], &[0; 300]].concat());
    let long_too_deep = (0..3).fold(long_deep.clone(), |element, _| fec(6, family, &holding(7, &element)));
    let elements = [
        good.clone(),
        sized(afi, 100),
        good[..5].to_vec(),
        [&good[..], &[0]].concat(),
        [&too_deep[..], &[0]].concat(),
        fec(6, 3 - family, &[]),
        too_deep,
        vec![],
        sized(afi, 300),
        long_deep,
        long_too_deep,
        [&sized(afi, 300)[..], &[0]].concat(),
    ];
    let mut mldp_keys: Vec<Vec<u8>> = mldp(afi, 2).into_iter().map(|sample| sample.key).collect();
    mldp_keys.retain(|key| !key.is_empty());
    mldp_keys.extend(mldp(afi, 5).into_iter().map(|sample| sample.key));
    mldp_keys.extend([vec![0x43, 255], vec![0; 300], vec![0; 251], vec![0; 252], vec![0; 239], vec![0; 240]]);
    mldp_keys.extend(
        all_nlris().into_iter().filter(|sample| sample.afi == afi && sample.nlri.route_type == 3).map(|it| it.octets),
    );
    for (element, key) in elements.iter().flat_map(|element| mldp_keys.iter().map(move |key| (element, key))) {
        for (route_type, originator) in
            [0x43, 0x44, 0x47, 4, 3, 0x46].into_iter().flat_map(|it| [4, 16, 5].map(|size| (it, size)))
        {
            for (afi, room) in [(afi, 600), (afi, 20), (0, 600)] {
                harness.inputs += 1;
                harness.nlri_write(afi, fields(route_type, originator), key, element, room)?;
            }
        }
    }
    Ok(())
}

/// Bodies of 250 to 260 octets and of more, at writing and, up to 255, read back.
fn bodies(harness: &mut Harness, afi: u16) -> Checked {
    for (body, originator) in (250..=260).chain([300, 511, 512, 513, 768]).flat_map(|body| [(body, 4), (body, 16)]) {
        let element = sized(afi, body - 8 - originator);
        let key = [&[0x43, (body - originator - 2) as u8][..], &[1; 8], &sized(afi, body - originator - 14), &[10; 4]]
            .concat();
        for room in [body + 2, body + 1, 0, 900] {
            harness.inputs += 1;
            harness.nlri_write(afi, fields(0x43, originator), &[], &element, room)?;
            harness.nlri_write(afi, fields(0x47, originator), &[], &sized(afi, body - 12), room)?;
            harness.nlri_write(afi, fields(0x44, originator), &key, &[], room)?;
            harness.nlri_write(afi, fields(4, originator), &key, &[], room)?;
        }
        let whole = [&[1; 8][..], &element, &vec![10; originator]].concat();
        let leaf = [&key[..], &vec![10; originator]].concat();
        for (route_type, whole) in [(0x43, whole), (0x44, leaf)] {
            let nlri = [&[route_type, body as u8], &whole[..]].concat();
            harness.nlri_round_trip(afi, &nlri)?;
            harness.walk_both_ways(afi, &nlri)?;
        }
    }
    // Elements whose opaque length is the most that it can say, and one that it cannot.
    for size in [65_535, 65_536, 70_000] {
        for route_type in [0x43, 0x47] {
            harness.nlri_write(afi, fields(route_type, 4), &[], &fec(6, afi as u8, &vec![1; size]), 80_000)?;
        }
    }
    Ok(())
}

/// Keys of every type under 4 and 0x44, read and written.
fn keys(harness: &mut Harness, random: &mut Random, afi: u16) -> Checked {
    let samples = all_nlris().into_iter().chain((3..=5).flat_map(|depth| mldp(afi, depth)));
    let mut keys: Vec<Vec<u8>> =
        samples.filter(|sample| sample.octets.len() < 200).map(|sample| sample.octets).collect();
    let bodies: Vec<Vec<u8>> = keys.iter().map(|key| key[2..].to_vec()).collect();
    for route_type in 0..=255 {
        let body = &bodies[random.below(bodies.len())];
        keys.push([&[route_type, body.len() as u8], &body[..]].concat());
        keys.push(vec![route_type, 0]);
    }
    for (key, leaf) in keys.iter().flat_map(|key| [4, 0x44].map(|leaf| (key, leaf))) {
        harness.inputs += 1;
        let nlri = [&[leaf, key.len() as u8 + 4], &key[..], &[10, 0, 0, 2]].concat();
        harness.nlri_round_trip(afi, &nlri)?;
        harness.walk_both_ways(afi, &nlri)?;
        harness.nlri_write(afi, fields(leaf, 4), key, &[], 260)?;
    }
    Ok(())
}

/// The NLRI of an element, in two route types.
fn with_element(harness: &mut Harness, afi: u16, element: &[u8]) -> Checked {
    harness.inputs += 1;
    for (route_type, body) in [(0x47, join(element)), (0x43, s_pmsi(element))] {
        let nlri = [&[route_type, body.len() as u8], &body[..]].concat();
        harness.nlri_round_trip(afi, &nlri)?;
        harness.walk(afi, harness.any_mode(), &nlri)?;
    }
    harness.nlri_write(afi, fields(0x43, 4), &[], element, 300)
}

/// Every choice of families, of FEC types and of opaque types, to the depth of five.
fn families(harness: &mut Harness, afi: u16) -> Checked {
    for (depth, chosen) in (1..=5).flat_map(|depth| (0..1 << (2 * depth)).map(move |chosen| (depth, chosen))) {
        let bit = |level: usize| (chosen >> level & 1) as u8;
        let mut element = fec(6, 1 + bit(0), &[]);
        for level in 1..depth {
            let fec_type = 6 + (chosen % (level + 2)) as u8 % 3;
            element = fec(fec_type, 1 + bit(level), &holding(7 + bit(depth + level), &element));
        }
        with_element(harness, afi, &element)?;
    }
    Ok(())
}

/// Every opening of an opaque value at each depth: alone, with any octets behind it, and with an element.
fn openings(harness: &mut Harness, random: &mut Random, afi: u16) -> Checked {
    let element = fec(8, 3 - afi as u8, &[]);
    for (opening, depth) in (0..=255).flat_map(|opening| (1..=4).map(move |depth| (opening, depth))) {
        let mut held = holding(7 + depth % 2, &element);
        held[0] = opening;
        for innermost in [vec![opening], [&[opening], &random.octets(4)[..]].concat(), held] {
            with_element(harness, afi, &around(afi, depth.into(), &innermost))?;
        }
    }
    Ok(())
}

/// So many elements of the AFI's family, the innermost with this opaque value.
fn around(afi: u16, depth: usize, innermost: &[u8]) -> Vec<u8> {
    let element = fec(7, afi as u8, innermost);
    (1..depth).fold(element, |element, level| fec(6, afi as u8, &holding(7 + (level % 2) as u8, &element)))
}

/// An opaque value that is cut everywhere, its own length left or put right, and octets after it; what is around it at each
/// depth is right.
fn inside(harness: &mut Harness, afi: u16) -> Checked {
    let held = fec(8, 3 - afi as u8, &[2, 0, 1, 0]);
    for (depth, opaque_type) in (1..=4).flat_map(|depth| [(depth, 7), (depth, 8)]) {
        let whole = holding(opaque_type, &held);
        for size in 0..whole.len() {
            with_element(harness, afi, &around(afi, depth, &whole[..size]))?;
        }
        for size in 0..held.len() {
            with_element(harness, afi, &around(afi, depth, &holding(opaque_type, &held[..size])))?;
        }
        for after in [&[0][..], &[7], &[0; 2], &[7, 0, 0]] {
            with_element(harness, afi, &around(afi, depth, &[&whole[..], after].concat()))?;
            let inner = holding(opaque_type, &[&held[..], after].concat());
            with_element(harness, afi, &around(afi, depth, &inner))?;
        }
    }
    Ok(())
}

/// Elements one to six deep: every truncation, the Length field left and put right, octets inserted and left out, every octet
/// changed; read, and lent to a writer.
fn every_depth(harness: &mut Harness) -> Checked {
    for (afi, depth) in GOOD_AFIS.into_iter().flat_map(|afi| (1..=6).map(move |depth| (afi, depth))) {
        for sample in mldp(afi, depth) {
            let Sample { octets, nlri, .. } = &sample;
            for size in 2..=octets.len() {
                harness.read_all_ways(afi, Input::cut(octets, size))?;
                resized(harness, afi, &octets[..size])?;
                resized(harness, afi, &[&octets[..size], &[7], &octets[size..]].concat())?;
                resized(harness, afi, &[&octets[..size - 1], &octets[size..]].concat())?;
            }
            for other in GOOD_AFIS.into_iter().chain(BAD_AFIS) {
                harness.read_all_ways(other, octets)?;
            }
            // The type without an originator has every value of every octet.
            let all: Vec<u8> = (1..=255).collect();
            let differences = if nlri.route_type == 0x47 { &all[..] } else { &DIFFERENCES };
            changes_by(octets, differences.iter().copied(), |nlri| harness.nlri_read(afi, nlri))?;
            elements(harness, &sample)?;
        }
    }
    Ok(())
}

/// The NLRI with its Length field put right.
fn resized(harness: &mut Harness, afi: u16, nlri: &[u8]) -> Checked {
    let mut nlri = nlri.to_vec();
    if let [_, length, body @ ..] = &mut nlri[..] {
        *length = body.len() as u8;
    }
    harness.inputs += 1;
    harness.nlri_round_trip(afi, &nlri).map(drop)
}

/// Every truncation and some changes of a FEC element at writing, and octets after it; beside a bad originator too.
fn elements(harness: &mut Harness, sample: &Sample) -> Checked {
    let Sample { afi, nlri, fec, octets, .. } = sample;
    let (afi, nlri, room) = (*afi, *nlri, octets.len());
    if fec.is_empty() {
        return Ok(());
    }
    let mut bad_originator = nlri;
    bad_originator.originator.size = 5;
    for size in 0..=fec.len() {
        harness.nlri_write(afi, nlri, &[], Input::cut(fec, size), room)?;
        harness.nlri_write(afi, bad_originator, &[], Input::cut(fec, size), 0)?;
    }
    for extra in [1, 2, 16, 254, 255, 256, 512, 65_536] {
        harness.nlri_write(afi, nlri, &[], &[&fec[..], &vec![0; extra]].concat(), room + 600)?;
    }
    harness.inputs += 1;
    changes_by(fec, DIFFERENCES, |fec| harness.nlri_write(afi, nlri, &[], fec, room))
}

/// An NLRI of these types near to a well-formed one, alone or before another.
fn any_nlri(harness: &mut Harness, random: &mut Random, round: u64) -> Checked {
    let afi = random.pick(&GOOD_AFIS);
    let mut nlri = near::of_type(random, afi, MLDP_TYPES[round as usize % MLDP_TYPES.len()]);
    near::disturb_nlri(random, &mut nlri);
    harness.inputs += 1;
    harness.nlri_round_trip(afi, &nlri)?;
    nlri.extend(near::item(random, afi));
    harness.walk_by_steps(afi, &nlri)
}
