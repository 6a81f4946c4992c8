//! Source Active routes for SSM groups (document 02, W-210): groups at the ends of the range and beside it, in each type and every call
//! that reads or writes an NLRI, or steps over one.

use super::examples;
use crate::{
    cases::{
        encodings::{
            mutations::{changes, lengths},
            nlri_writing,
        },
        inputs::{
            lists::{list, EMPTY},
            near::{self, make_specific},
            routes::{bad_attributes, bad_nlris, good_attributes, picked, Addresses},
            samples::{discarded, nlris, with_addresses, Sample, GOOD_AFIS},
        },
        runs::pieces::{any_ends, any_pieces, every_cut, pieces, read},
        shared::matches::{matched, table_of_all, UPSTREAM},
        table::memory::OUTPUT,
    },
    compare::{run::MODES, Checked, Harness, Input},
    hexadecimal::octets,
    random::Random,
    second::{
        matches::{choice::LEAST_OUTPUT, shared::Reception},
        runs::run::{OLD, SKIP},
        table::calls::TableCall,
    },
};

/// Groups at the ends of the range, right beside it and far from it; the last is no multicast address.
const GROUPS: [&[&str]; 2] = [
    &["E7FFFFFF", "E8000000", "E8FFFFFF", "E9000000", "E0000000", "EFFFFFFF", "0A010101"],
    &[
        "FF2FFFFFFFFFFFFFFFFFFFFFFFFFFFFF",
        "FF300000000000000000000000000000",
        "FF300000FFFFFFFFFFFFFFFFFFFFFFFF",
        "FF300001000000000000000000000000",
        "FF3F0000000000000000000000000000",
        "FF3F0000FFFFFFFFFFFFFFFFFFFFFFFF",
        "FF3F0001000000000000000000000000",
        "FF400000000000000000000000000000",
        "FF000000000000000000000000000000",
        "FE300000000000000000000000000001",
    ],
];

/// Route types that carry a group.
const TYPES: [u8; 4] = [3, 5, 6, 7];

/// Random cases: so many, and one more for so many random cases of the run.
const ROUNDS: u64 = 3_000;
const CASES_A_ROUND: u64 = 100;

/// Any routes about the range that each family's table is asked to take.
const ANY_INSTALLS: usize = 200;

pub fn all(harness: &mut Harness, random: &mut Random, cases: u64) -> Checked {
    examples::all(harness, random)?;
    for afi in GOOD_AFIS {
        for sample in at_the_ends(afi) {
            of_sample(harness, random, &sample)?;
        }
        tables(harness, random, afi)?;
        lists(harness, random, afi)?;
        runs(harness, random, afi)?;
    }
    for round in 0..ROUNDS + cases / CASES_A_ROUND {
        any_nlri(harness, random)?;
        any_run(harness, random, round)?;
    }
    Ok(())
}

/// The groups as octets.
fn groups(afi: u16) -> Vec<Vec<u8>> {
    GROUPS[usize::from(afi) - 1].iter().map(|text| octets(text)).collect()
}

/// Each type with each group, and with each group as its source.
fn at_the_ends(afi: u16) -> Vec<Sample> {
    let groups = groups(afi);
    let (first, last) = (&groups[0], &groups[groups.len() - 1]);
    let pairs = groups.iter().flat_map(|group| [(last, group), (group, group), (group, first)]);
    pairs.flat_map(|(source, group)| TYPES.map(|route_type| with_addresses(afi, route_type, source, group))).collect()
}

/// One NLRI: read and written back, under the other AFI, and inside a Leaf.
fn of_sample(harness: &mut Harness, random: &mut Random, sample: &Sample) -> Checked {
    let (afi, octets) = (sample.afi, &sample.octets);
    harness.nlri_round_trip(afi, octets)?;
    harness.read_all_ways(3 - afi, octets)?;
    let leaf = [&[4, octets.len() as u8 + 4], &octets[..], &[10, 0, 0, 2]].concat();
    harness.read_all_ways(afi, &leaf)?;
    other_lengths(harness, afi, octets)?;
    for room in [0, octets.len() - 1, octets.len(), octets.len() + 1] {
        harness.nlri_write(afi, sample.nlri, &[], &[], room)?;
    }
    match sample.nlri.route_type {
        5 => of_source_active(harness, random, sample),
        _ => Ok(()),
    }
}

/// Cut at every octet, with octets after it, and with every other Length up to three more; then with as many octets, and with more.
fn other_lengths(harness: &mut Harness, afi: u16, octets: &[u8]) -> Checked {
    lengths(octets, |input| harness.read_all_ways(afi, input))?;
    for extra in [octets, &[5], &[9, 0], &[0; 256]] {
        harness.read_all_ways(afi, &[octets, extra].concat())?;
    }
    for length in 0..=octets[1].saturating_add(3) {
        let mut cut = octets.to_vec();
        cut[1] = length;
        harness.read_all_ways(afi, Input::cut(&cut, cut.len().min(2 + usize::from(length))))?;
        harness.read_all_ways(afi, &[&cut[..], &[0; 3]].concat())?;
    }
    Ok(())
}

/// Of a Source Active route also every change of an octet, and what writers are asked of every sample; of a writer every octet of the
/// group changed.
fn of_source_active(harness: &mut Harness, random: &mut Random, sample: &Sample) -> Checked {
    let afi = sample.afi;
    changes(&sample.octets, |octets| harness.read_all_ways(afi, octets))?;
    for place in 0..usize::from(sample.nlri.group.size) {
        let mut nlri = sample.nlri;
        for value in 0..=255 {
            nlri.group.octets[place] = value;
            harness.nlri_write(afi, nlri, &[], &[], sample.octets.len())?;
        }
    }
    nlri_writing::of_sample(harness, random, sample)
}

/// Installed and withdrawn, with good and bad attributes: on a table with room, a full one and one that is not sound; and any about the
/// range.
fn tables(harness: &mut Harness, random: &mut Random, afi: u16) -> Checked {
    let addresses = Addresses::of_family(afi);
    let images = [(3, 2), (2, 2)].map(|(places, count)| addresses.table(random, places, count).image());
    let mut unsound = images[0].clone();
    unsound[7] += 1;
    let attributes = [good_attributes().swap_remove(1)].into_iter().chain(bad_attributes());
    let attributes: Vec<Vec<u8>> = attributes.collect();
    for sample in at_the_ends(afi) {
        for (memory, extra) in images.iter().chain([&unsound]).flat_map(|memory| [(memory, &[][..]), (memory, &[0])]) {
            let nlri = &[&sample.octets[..], extra].concat();
            harness.table_call(memory, TableCall::Withdraw { nlri })?;
            for attribute in &attributes {
                harness.inputs += 1;
                harness.table_call(memory, TableCall::Install { nlri, attribute })?;
            }
        }
    }
    for _ in 0..ANY_INSTALLS {
        let nlri = &source_active(random, afi);
        harness.inputs += 1;
        harness.table_call(&images[0], TableCall::Withdraw { nlri })?;
        harness.table_call(&images[0], TableCall::Install { nlri, attribute: picked(random, &attributes) })?;
    }
    Ok(())
}

/// Told of shared trees, among other routes that are read or refused: of the PE asked and of another, with prefixes and without, with
/// room for the answer and without.
fn lists(harness: &mut Harness, random: &mut Random, afi: u16) -> Checked {
    let addresses = Addresses::of_family(afi);
    let memory = table_of_all(random, &addresses);
    let others: Vec<Vec<u8>> = bad_nlris(afi).into_iter().chain([addresses.source_active(random)[1].clone()]).collect();
    let all = with_prefix_of_all(afi);
    let prefixes: Vec<&[u8]> = [EMPTY, &all].into_iter().chain(addresses.prefixes.iter().map(|it| &it[..])).collect();
    for sample in at_the_ends(afi).into_iter().filter(|sample| sample.nlri.route_type == 5) {
        for other in &others {
            let mut items = [&sample.octets, other].map(|nlri| [addresses.routers[1].clone(), nlri.clone()]);
            items.rotate_left(random.below(2));
            items[0][0] = addresses.routers[random.below(2)].clone();
            let source_actives = list(&items);
            let group = &addresses.groups[random.below(4)];
            let (router, prefixes) = (&addresses.routers[0], random.pick(&prefixes));
            let source_actives = &source_actives[..];
            let reception = Reception { prefixes, router, group, facts: UPSTREAM, source_actives, states: EMPTY };
            let room = random.pick(&[OUTPUT.len(), OUTPUT.len(), LEAST_OUTPUT - 1]);
            harness.inputs += 1;
            matched(harness, &memory, reception, &OUTPUT[..room])?;
        }
    }
    Ok(())
}

/// The list of the one prefix that holds every group.
fn with_prefix_of_all(afi: u16) -> Vec<u8> {
    let address = vec![0; if afi == 1 { 4 } else { 16 }];
    list(&[[[vec![0], address].concat()]])
}

/// Several of them between other NLRIs and unknown types: cut at every octet into two and three pieces, in both modes.
fn runs(harness: &mut Harness, random: &mut Random, afi: u16) -> Checked {
    let [one, other] = [discarded(afi).octets, near::of_type(random, afi, 2)];
    let kept = nlris(afi).into_iter().find(|sample| sample.nlri.route_type == 5).map_or(vec![], |it| it.octets);
    every_cut(harness, random, afi, &[&one[..], &[9, 0], &other].concat())?;
    every_cut(harness, random, afi, &[&other[..], &one, &one[..one.len() - 1]].concat())?;
    let run = [&one[..], &kept, &[0, 1, 5], &one, &other, &one].concat();
    for mode in [SKIP, OLD] {
        harness.walk_by_steps(afi, &run)?;
        for cut in 0..=run.len() {
            harness.walk(afi, mode, Input::cut(&run, cut))?;
            harness.step(afi, &run, cut)?;
            read(harness, random, afi, mode, pieces(&run, &[cut, run.len()]))?;
        }
        let every: Vec<usize> = (1..=run.len()).collect();
        read(harness, random, afi, mode, pieces(&run, &every))?;
    }
    between_them(harness, random, afi, &one)
}

/// Each sample between discarded ones, cut short at every octet, and in pieces.
fn between_them(harness: &mut Harness, random: &mut Random, afi: u16, one: &[u8]) -> Checked {
    for sample in nlris(afi) {
        let run = [one, &sample.octets, one, &[9, 0], &sample.octets].concat();
        harness.inputs += 1;
        harness.walk_by_steps(afi, &run)?;
        for size in 0..run.len() {
            harness.walk(afi, harness.any_mode(), Input::cut(&run, size))?;
        }
        any_pieces(harness, random, afi, &run)?;
    }
    Ok(())
}

/// A Source Active route about the range, disturbed half of the time, and any fields with such a group, written.
fn any_nlri(harness: &mut Harness, random: &mut Random) -> Checked {
    let afi = near::afi(random);
    let mut octets = source_active(random, afi);
    near::disturb_nlri(random, &mut octets);
    harness.read_all_ways(afi, &octets)?;
    harness.nlri_round_trip(afi, &octets)?;
    let mut nlri = nlri_writing::fields(random);
    let size = if afi == 2 { 16 } else { 4 };
    make_specific(random, &mut nlri.group.octets[..size]);
    [nlri.source.size, nlri.group.size] = [0; 2].map(|_| if random.once_in(8) { random.octet() } else { size as u8 });
    let (key, fec) = nlri_writing::lent(random, afi, nlri.route_type);
    let room = random.below(96);
    harness.nlri_write(afi, nlri, &key, &fec, room)
}

/// A Source Active route whose group is about the range.
fn source_active(random: &mut Random, afi: u16) -> Vec<u8> {
    let size = if afi == 2 { 16 } else { 4 };
    let [source, mut group] = [0; 2].map(|_| random.octets(size));
    make_specific(random, &mut group);
    with_addresses(afi, 5, &source, &group).octets
}

/// A run where every third NLRI is about the range, some are of unknown types and some are disturbed; stepped, walked and in pieces.
fn any_run(harness: &mut Harness, random: &mut Random, round: u64) -> Checked {
    let afi = near::afi(random);
    let run = near::joined(random, (round % 17) as usize, 16, |random| match random.once_in(3) {
        true => source_active(random, afi),
        false => near::item(random, afi),
    });
    harness.inputs += 1;
    harness.walk_by_steps(afi, &run)?;
    let (mode, ends) = (random.pick(&MODES), any_ends(random, run.len()));
    read(harness, random, afi, mode, pieces(&run, &ends)).map(drop)
}
