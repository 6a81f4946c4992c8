//! Salvage of damaged tables (document 02, W-212): examples with their tables and lists; every size of each buffer about those that are
//! taken; the largest tables; every arrangement of a few places; every octet of small tables and of headers; places with each thing that
//! can be wrong; damaged tables of up to 500 places, in any order; memory of any octets.

use super::restarts::place_of;
use crate::{
    cases::{
        document::in_papers,
        inputs::{
            damage::DAMAGES,
            places::{header, laid_out},
            routes::{bad_attributes, bad_nlris, good_attributes, picked, s_pmsi, Addresses},
            samples::GOOD_AFIS,
        },
    },
    compare::{Checked, Harness, Input},
    coverage::SALVAGED,
    ffi::Salvaged,
    hexadecimal::octets,
    random::Random,
    second::table::{
        memory::{size, Table, HEADER, MOST_PLACES, PLACE},
        salvage::{Salvage, DROPPED_PLACE},
    },
};

pub fn all(harness: &mut Harness, random: &mut Random, cases: u64) -> Checked {
    examples(harness)?;
    refusal_examples(harness)?;
    for afi in GOOD_AFIS {
        let addresses = Addresses::of_family(afi);
        memory_sizes(harness, random, &addresses)?;
        buffer_sizes(harness, random, &addresses)?;
        largest(harness, random, &addresses)?;
        arrangements(harness, random, &addresses)?;
        headers(harness, random, &addresses)?;
        every_octet(harness, random, &addresses)?;
        single_places(harness, random, &addresses)?;
        place_sizes(harness, random, &addresses)?;
        damaged(harness, random, &addresses)?;
        any_memory(harness, random, &addresses)?;
        any_damage(harness, random, &addresses, cases)?;
    }
    Ok(())
}

// ---- examples

/// What it shows, the AFI given, the header of the memory, its places, the places of the table that is made, and the list. The routes
/// are those of the restarts' examples, A to G, in the order of their NLRIs D F E C B A G: a stroke is behind those that are marked, a
/// star behind those with another attribute, and behind bad places `!` for BIER with label 0, `+` for an octet after the attribute, `~`
/// for one before the mark, `2` for a mark of 2, `<` for an NLRI size of one octet less. `.` is all zero, `?` has all bits set, `m` is
/// zero but for a mark, `z` but for an octet in its middle, `i` holds an Intra-AS I-PMSI route, and `n` is D with an attribute that names
/// no tunnel.
pub type Example = (&'static str, u16, &'static str, &'static str, &'static str, &'static str);

pub const EXAMPLES: [Example; 41] = [
    ("no places", 1, "4D5654 0001 01 0000", "", "", ""),
    ("no places, a header of noise", 2, "FFFFFF FFFF FF FFFF", "", "", ""),
    ("an empty table", 1, "4D5654 0001 01 0000", ". .", "", ""),
    ("a sound table", 1, "4D5654 0001 01 0003", "D C' A .", "D C' A", ""),
    ("a full one", 1, "4D5654 0001 01 0004", "D' F B* G'", "D' F B* G'", ""),
    ("the count is too low", 1, "4D5654 0001 01 0001", "D C A' .", "D C A'", ""),
    ("the count is 0", 1, "4D5654 0001 01 0000", "D C A .", "D C A", ""),
    ("the count is too high", 1, "4D5654 0001 01 0004", "D C A .", "D C A", ""),
    ("the count is over the places", 1, "4D5654 0001 01 FFFF", "D C A .", "D C A", ""),
    ("another name", 1, "4D5653 0001 01 0002", "D C", "D C", ""),
    ("another version", 1, "4D5654 0100 01 0002", "D C", "D C", ""),
    ("the other AFI in the header", 1, "4D5654 0001 02 0002", "D C", "D C", ""),
    ("a header of zeros", 1, "000000 0000 00 0000", "D C .", "D C", ""),
    ("a header of noise", 1, "A5A5A5 A5A5 A5 A5A5", "D C .", "D C", ""),
    ("a sound table of the other AFI: wildcards are of both", 2, "4D5654 0001 01 0003", "D F A", "D F", "0002 01"),
    ("places exchanged", 1, "4D5654 0001 01 0003", "A C D .", "D C A", ""),
    ("in reverse order, with their marks", 1, "4D5654 0001 01 0004", "G' A B' F", "F B' A G'", ""),
    ("a place of zeros before one that is taken", 1, "4D5654 0001 01 0002", ". A . D", "D A", ""),
    ("a repeated place", 1, "4D5654 0001 01 0003", "D A A .", "D A", "0002 02"),
    ("the first of equal NLRIs, whatever their attributes", 1, "4D5654 0001 01 0002", "A* A . .", "A*", "0001 02"),
    ("the first of equal NLRIs, whatever their marks", 1, "4D5654 0001 01 0002", "A A' . .", "A", "0001 02"),
    ("the first is marked", 1, "4D5654 0001 01 0002", "A' A . .", "A'", "0001 02"),
    ("three of one NLRI", 1, "4D5654 0001 01 0004", "A' A A* D", "D A'", "0001 02 0002 02"),
    ("two of each of two", 1, "4D5654 0001 01 0004", "A D* A' D", "D* A", "0002 02 0003 02"),
    ("a bad place", 1, "4D5654 0001 01 0003", "D ? A .", "D A", "0001 01"),
    ("all are bad", 1, "4D5654 0001 01 0004", "? ? ? ?", "", "0000 01 0001 01 0002 01 0003 01"),
    ("a bad place past the count", 1, "4D5654 0001 01 0001", "D ? . .", "D", "0001 01"),
    ("a repeated place past the count", 1, "4D5654 0001 01 0001", "D D . .", "D", "0001 02"),
    ("a bad place before a good one of its NLRI", 1, "4D5654 0001 01 0002", "A! A . .", "A", "0000 01"),
    ("a bad place behind a good one of its NLRI", 1, "4D5654 0001 01 0002", "A A! . .", "A", "0001 01"),
    ("a bad place between two of its NLRI", 1, "4D5654 0001 01 0003", "A A! A* .", "A", "0001 01 0002 02"),
    ("bad and repeated places in turn", 1, "4D5654 0001 01 0005", "A ? A ? A", "A", "0001 01 0002 02 0003 01 0004 02"),
    ("an octet after the attribute", 1, "4D5654 0001 01 0002", "D+ A", "A", "0000 01"),
    ("an octet before the mark", 1, "4D5654 0001 01 0002", "D~ A", "A", "0000 01"),
    ("a mark of 2", 1, "4D5654 0001 01 0002", "D2 A'", "A'", "0000 01"),
    ("an NLRI that is cut", 1, "4D5654 0001 01 0002", "D< A", "A", "0000 01"),
    ("a mark alone", 1, "4D5654 0001 01 0001", "A m", "A", "0001 01"),
    ("an octet alone", 1, "4D5654 0001 01 0001", "A z", "A", "0001 01"),
    ("another kind", 1, "4D5654 0001 01 0002", "i A", "A", "0000 01"),
    ("a route that names no tunnel", 1, "4D5654 0001 01 0002", "n A", "n A", ""),
    (
        "everything at once",
        1,
        "4D5654 FFFF 02 8000",
        "A' . ? F D! A D . D* m",
        "D F A'",
        "0002 01 0004 01 0005 02 0008 02 0009 01",
    ),
];

/// What it shows, the AFI given, the octets of the memory, of the second buffer and of the list buffer, and the number. All octets of the
/// memory are 0, so that nothing is dropped.
pub const REFUSALS: [(&str, u16, [usize; 3], u32); 31] = [
    ("two places", 1, [264, 264, 6], 0),
    ("a longer list buffer", 1, [264, 264, 7], 0),
    ("no places, no list buffer", 2, [8, 8, 0], 0),
    ("the most places", 2, [64_008, 64_008, 1_500], 0),
    ("AFI 0", 0, [264, 264, 6], 10),
    ("AFI 3", 3, [264, 264, 6], 10),
    ("AFI 257", 257, [264, 264, 6], 10),
    ("AFI 512", 512, [264, 264, 6], 10),
    ("FAMILY before TABLE", 3, [263, 263, 6], 10),
    ("FAMILY before SPACE, the second buffer", 3, [264, 263, 6], 10),
    ("FAMILY before SPACE, the list buffer", 3, [264, 264, 5], 10),
    ("no memory", 1, [0, 0, 0], 11),
    ("an octet fewer than a header", 1, [7, 7, 0], 11),
    ("an octet more than a header", 1, [9, 9, 3], 11),
    ("an octet fewer than two places", 1, [263, 263, 6], 11),
    ("an octet more than two places", 1, [265, 265, 9], 11),
    ("an octet fewer than the most places", 2, [64_007, 64_007, 1_500], 11),
    ("501 places", 2, [64_136, 64_136, 1_503], 11),
    ("512 places", 2, [65_544, 65_544, 1_536], 11),
    ("TABLE before SPACE, the second buffer", 1, [263, 264, 6], 11),
    ("TABLE before SPACE, the list buffer", 1, [265, 265, 0], 11),
    ("a second buffer of an octet fewer", 1, [264, 263, 6], 16),
    ("a second buffer of an octet more", 1, [264, 265, 6], 16),
    ("a second buffer of a place fewer", 1, [264, 136, 6], 16),
    ("a second buffer of a place more", 1, [264, 392, 6], 16),
    ("no second buffer", 1, [264, 0, 6], 16),
    ("no second buffer for no places", 1, [8, 0, 0], 16),
    ("a list buffer of an octet fewer", 1, [264, 264, 5], 16),
    ("a list buffer of a place fewer", 1, [264, 264, 3], 16),
    ("no list buffer", 1, [136, 136, 0], 16),
    ("a list buffer of an octet fewer, the most places", 2, [64_008, 64_008, 1_499], 16),
];

/// What the second buffer and the list buffer of the examples hold beforehand.
pub const FILL: u8 = 0xA5;

/// The memory of an example.
pub fn memory_of((_, _, header, places, _, _): &Example) -> Vec<u8> {
    let places: Vec<Vec<u8>> = places.split_whitespace().map(place_named).collect();
    [octets(header), places.concat()].concat()
}

/// What an example's salvage must leave, the list buffer having so many octets more than it needs.
pub fn asked_of((_, afi, _, places, held, list): &Example, more: usize) -> Salvage {
    let places = places.split_whitespace().count();
    let held: Vec<Vec<u8>> = held.split_whitespace().map(place_named).collect();
    let mut table = [&header(*afi, held.len())[..], &held.concat()].concat();
    table.resize(8 + 128 * places, 0);
    let mut dropped = octets(list);
    let answer = Salvaged { number: 0, kept: held.len() as u32, dropped: dropped.len() as u32 / 3 };
    dropped.resize(3 * places + more, FILL);
    Salvage { answer, table, dropped }
}

/// A place of the examples.
fn place_named(name: &str) -> Vec<u8> {
    let with = |at: usize, value: u8| {
        let mut place = place_of(name);
        place[at] = value;
        place
    };
    match name.chars().last() {
        Some('.') => vec![0; 128],
        Some('?') => vec![0xFF; 128],
        Some('m') => [vec![0; 127], vec![1]].concat(),
        Some('z') => [vec![0; 64], vec![7], vec![0; 63]].concat(),
        Some('i') => laid_out(&octets("010C 0000006400000007 0A000001"), &octets("00 06 000060 0A000001"), 0),
        Some('n') => laid_out(&octets("030E 0000006400000007 00 00 0A000001"), &octets("01 00 000000"), 0),
        Some('!') => {
            let place = place_of(name);
            laid_out(&place[2..][..place[0].into()], &octets("00 0B 00000F 01 0002 0A000001"), 0)
        }
        Some('+') => with(100, 1),
        Some('~') => with(126, 1),
        Some('2') => with(127, 2),
        Some('<') => with(0, place_of(name)[0] - 1),
        _ => place_of(name),
    }
}

fn examples(harness: &mut Harness) -> Checked {
    for (example, more) in EXAMPLES.iter().flat_map(|example| [0, 1, 5].map(|more| (example, more))) {
        let (memory, asked) = (memory_of(example), asked_of(example, more));
        let [table, dropped] = [&asked.table, &asked.dropped].map(|octets| vec![FILL; octets.len()]);
        let answer = harness.salvage(example.1, &memory, &table, &dropped)?;
        in_papers(format!("document 02, W-212, {}", example.0), answer, asked)?;
    }
    Ok(())
}

fn refusal_examples(harness: &mut Harness) -> Checked {
    for (shows, afi, [damaged, table, dropped], number) in REFUSALS {
        let answer = harness.salvage(afi, &vec![0; damaged], &vec![FILL; table], &vec![FILL; dropped])?;
        in_papers(format!("document 02, W-212, {shows}"), answer.answer, Salvaged { number, ..Default::default() })?;
    }
    Ok(())
}

// ---- calls on any memory

/// A salvage with buffers that are large enough and hold something else each time.
fn ask<'a>(harness: &mut Harness, random: &mut Random, afi: u16, damaged: impl Into<Input<'a>>) -> Checked {
    let damaged = damaged.into();
    let places = damaged.octets.len() / PLACE;
    let table = match random.below(4) {
        0 => vec![0; damaged.octets.len()],
        1 => vec![0xFF; damaged.octets.len()],
        2 => damaged.octets.to_vec(),
        _ => random.octets(damaged.octets.len()),
    };
    let more = random.pick(&[0, 0, 1, 2, 3, 130]);
    let dropped = random.octets(DROPPED_PLACE * places + more);
    harness.salvage(afi, damaged, &table, &dropped).map(drop)
}

/// A header: a good one with this count, or one whose AFI, version, count or everything is wrong.
fn any_header(random: &mut Random, afi: u16, count: usize) -> Vec<u8> {
    let mut header = header(afi, count).to_vec();
    match random.below(8) {
        0 => header = random.octets(HEADER),
        1 => header.fill(0),
        2 => header[5] = 3 - afi as u8,
        3 => header[6..].copy_from_slice(&[0, 0]),
        4 => header[6..].copy_from_slice(&[0xFF, 0xFF]),
        5 => header[7] = header[7].wrapping_sub(1),
        _ => {}
    }
    header
}

/// Two routes of the family, the first with the higher NLRI; other attributes than theirs; and a route of the other family.
struct Stock {
    high: Vec<u8>,
    low: Vec<u8>,
    other: Vec<u8>,
    attributes: [Vec<u8>; 2],
}

impl Stock {
    fn of(addresses: &Addresses) -> Self {
        let Addresses { distinguishers, sources, groups, routers, .. } = addresses;
        let other = Addresses::of_family(3 - addresses.afi);
        let attributes = good_attributes();
        Stock {
            high: s_pmsi(&distinguishers[2], &sources[0], &groups[0], &routers[0]),
            low: s_pmsi(&distinguishers[1], &sources[0], &groups[0], &routers[0]),
            other: s_pmsi(&distinguishers[1], &other.sources[0], &other.groups[0], &routers[0]),
            attributes: [attributes[1].clone(), attributes[3].clone()],
        }
    }
}

/// Memory cut to every size with the rest behind it, and the largest with a few octets more or fewer.
fn memory_sizes(harness: &mut Harness, random: &mut Random, addresses: &Addresses) -> Checked {
    let mut image = addresses.table(random, 4, 4).image();
    image[size(1)..size(2)].fill(0xFF);
    for octets in 0..=image.len() {
        ask(harness, random, addresses.afi, Input::cut(&image, octets))?;
    }
    let mut whole = addresses.table(random, MOST_PLACES, 40).image();
    whole.extend(random.octets(size(20)));
    let about = [1, PLACE].into_iter().flat_map(|more| [size(MOST_PLACES) - more, size(MOST_PLACES) + more]);
    for octets in about.chain([size(MOST_PLACES), size(512)]) {
        ask(harness, random, addresses.afi, Input::cut(&whole, octets))?;
    }
    Ok(())
}

/// Each size of each buffer about the right one, with each of the others: the order of refusals. Of the memory nothing is dropped, or
/// every place.
fn buffer_sizes(harness: &mut Harness, random: &mut Random, addresses: &Addresses) -> Checked {
    for places in SALVAGED {
        let whole = size(places);
        let bad = [random.octets(HEADER), vec![0xFF; PLACE * (places + 1)]].concat();
        let sound = addresses.table(random, places, places.min(20)).image();
        let sound = [sound, vec![0; PLACE]].concat();
        let table = random.octets(whole + 2 * PLACE);
        let list = random.octets(2 * DROPPED_PLACE * places + 8);
        let tables =
            [Some(whole), Some(0), Some(whole - 1), Some(whole + 1), whole.checked_sub(PLACE), Some(whole + PLACE)];
        let room = DROPPED_PLACE * places;
        let rooms = [
            Some(room),
            Some(0),
            room.checked_sub(1),
            room.checked_sub(DROPPED_PLACE),
            Some(2 * places),
            Some(room + 1),
        ];
        let rooms: Vec<usize> = rooms.into_iter().flatten().chain([room + DROPPED_PLACE, 2 * room]).collect();
        for memory in [&bad, &sound] {
            for damaged in [whole, whole - 1, whole + 1, whole + PLACE] {
                for (table_size, list_size) in
                    tables.iter().flatten().flat_map(|table| rooms.iter().map(move |room| (*table, *room)))
                {
                    for afi in [addresses.afi, 0, 256 + addresses.afi] {
                        let [damaged, table, dropped] = [(memory, damaged), (&table, table_size), (&list, list_size)]
                            .map(|(it, end)| Input::cut(it, end));
                        harness.salvage(afi, damaged, table, dropped)?;
                    }
                }
            }
        }
    }
    Ok(())
}

/// Every list of four places of these: none, a route, marked, with another attribute, a lower one, one that is bad, all bits set, a
/// route of the other family.
fn arrangements(harness: &mut Harness, random: &mut Random, addresses: &Addresses) -> Checked {
    let Stock { high, low, other, attributes: [first, second] } = Stock::of(addresses);
    let places = [
        vec![0; PLACE],
        laid_out(&high, &first, 0),
        laid_out(&high, &first, 1),
        laid_out(&high, &second, 0),
        laid_out(&low, &first, 1),
        laid_out(&high, &first, 2),
        vec![0xFF; PLACE],
        laid_out(&other, &first, 0),
    ];
    for choice in 0..places.len().pow(4) {
        let list = [0, 1, 2, 3].map(|at| &places[choice / places.len().pow(at) % places.len()][..]);
        let taken = list.iter().filter(|place| **place != &places[0][..]).count();
        let memory = [any_header(random, addresses.afi, taken), list.concat()].concat();
        ask(harness, random, addresses.afi, &memory)?;
        if choice % 8 == 0 {
            ask(harness, random, 3 - addresses.afi, &memory)?;
        }
    }
    Ok(())
}

/// Every value of each octet of the header, of memory with a place of each fate.
fn headers(harness: &mut Harness, random: &mut Random, addresses: &Addresses) -> Checked {
    let Stock { high, low, attributes: [first, second], .. } = Stock::of(addresses);
    let places = [
        laid_out(&high, &first, 1),
        vec![0; PLACE],
        laid_out(&low, &first, 0),
        laid_out(&high, &second, 0),
        laid_out(&low, &first, 2),
    ];
    for (place, value) in (0..HEADER).flat_map(|place| (0..=255).map(move |value| (place, value))) {
        let mut memory = [&header(addresses.afi, 4)[..], &places.concat()].concat();
        memory[place] = value;
        ask(harness, random, addresses.afi, &memory)?;
        if place >= 5 {
            ask(harness, random, 3 - addresses.afi, &memory)?;
        }
    }
    Ok(())
}

/// Every value of each octet of a table with a place taken and one free; several values at each octet of a table of three places.
fn every_octet(harness: &mut Harness, random: &mut Random, addresses: &Addresses) -> Checked {
    let Stock { high, low, attributes: [first, second], .. } = Stock::of(addresses);
    let mut one = Table::new(addresses.afi, 2);
    one.routes.insert(high.clone(), first.clone());
    let mut two = Table::new(addresses.afi, 3);
    two.routes.extend([(high.clone(), first), (low, second)]);
    two.stale.insert(high);
    let others = |table: &Table, values: &dyn Fn(u8) -> Vec<u8>| -> Vec<Vec<u8>> {
        let image = table.image();
        let changed = |at: usize| {
            let with = |value| [&image[..at], &[value], &image[at + 1..]].concat();
            values(image[at]).into_iter().map(with).collect::<Vec<_>>()
        };
        (0..image.len()).flat_map(changed).collect()
    };
    for memory in others(&one, &|_| (0..=255).collect()) {
        ask(harness, random, addresses.afi, &memory)?;
    }
    let several = |kept: u8| vec![0, 1, 2, kept ^ 1, kept ^ 0x80, 255, kept.wrapping_add(1), kept.wrapping_sub(1)];
    for memory in others(&two, &several) {
        ask(harness, random, addresses.afi, &memory)?;
        ask(harness, random, 3 - addresses.afi, &memory)?;
    }
    Ok(())
}

/// A place with an NLRI or an attribute that install refuses, or both, and with each that it accepts: alone, before and behind a good
/// place of the same NLRI, and beside others.
fn single_places(harness: &mut Harness, random: &mut Random, addresses: &Addresses) -> Checked {
    let Stock { high, low, other, attributes: [first, _] } = Stock::of(addresses);
    let nlris =
        [bad_nlris(addresses.afi), vec![high.clone(), low.clone(), other], addresses.nlris(random, 20)].concat();
    let attributes = [bad_attributes(), good_attributes()].concat();
    for (at, nlri) in nlris.iter().enumerate() {
        for attribute in attributes.iter().filter(|attribute| 2 + nlri.len() + attribute.len() < PLACE) {
            let place = laid_out(nlri, attribute, (at % 3 == 0).into());
            let good = laid_out(nlri, &first, 0);
            let beside = laid_out(&low, &first, 1);
            for places in [vec![&place], vec![&good, &place], vec![&place, &good], vec![&beside, &place, &beside]] {
                let places: Vec<u8> = places.into_iter().flatten().copied().collect();
                let header = any_header(random, addresses.afi, places.len() / PLACE);
                ask(harness, random, addresses.afi, &[header, places].concat())?;
            }
        }
    }
    Ok(())
}

/// Every value of each size in a place, with values of the other about the right one and about those that reach the place's end.
fn place_sizes(harness: &mut Harness, random: &mut Random, addresses: &Addresses) -> Checked {
    let Stock { high, attributes: [first, _], .. } = Stock::of(addresses);
    let place = laid_out(&high, &first, 0);
    let few = |right: u8| {
        let end = (PLACE as u8 - 2).saturating_sub(right);
        [0, 1, right - 1, right, right + 1, end - 1, end, end + 1, 127, 128, 255 - right, 255]
    };
    let pairs =
        |at: usize| (0..=255).flat_map(move |value| few([high.len(), first.len()][1 - at] as u8).map(|it| (value, it)));
    let by_nlri: Vec<[u8; 2]> = pairs.clone()(0).map(|(value, other)| [value, other]).collect();
    let by_attribute: Vec<[u8; 2]> = pairs(1).map(|(value, other)| [other, value]).collect();
    for sizes in by_nlri.into_iter().chain(by_attribute) {
        let memory = [&header(addresses.afi, 1)[..], &sizes, &place[2..]].concat();
        ask(harness, random, addresses.afi, &memory)?;
    }
    Ok(())
}

/// Each damage done to tables with no, some and all places taken; and their places in another order.
fn damaged(harness: &mut Harness, random: &mut Random, addresses: &Addresses) -> Checked {
    for places in SALVAGED {
        for count in [0, 1, places / 2, places].into_iter().filter(|count| *count <= places) {
            for _ in 0..if places > 16 { 1 } else { 8 } {
                let table = addresses.table(random, places, count);
                ask(harness, random, addresses.afi, &table.image())?;
                ask(harness, random, 3 - addresses.afi, &table.image())?;
                for damage in DAMAGES {
                    let mut memory = table.image();
                    damage(random, &mut memory, count);
                    ask(harness, random, addresses.afi, &memory)?;
                }
                let image = table.image();
                for reversed in [true, false] {
                    let mut list: Vec<&[u8]> = image[HEADER..].chunks(PLACE).rev().collect();
                    if !reversed {
                        random.shuffle(&mut list);
                    }
                    let memory = [any_header(random, addresses.afi, count), list.concat()].concat();
                    ask(harness, random, addresses.afi, &memory)?;
                }
            }
        }
    }
    Ok(())
}

/// The most places: all bad, all of one NLRI, only the last one taken, each NLRI twice, and all but a few good.
fn largest(harness: &mut Harness, random: &mut Random, addresses: &Addresses) -> Checked {
    let Stock { high, attributes: [first, second], .. } = Stock::of(addresses);
    let table = addresses.table(random, MOST_PLACES, MOST_PLACES).image();
    let (header, places) = table.split_at(HEADER);
    let zero = [0; PLACE];
    let lists: [Vec<Vec<u8>>; 6] = [
        vec![vec![0xFF; PLACE]; MOST_PLACES],
        [vec![laid_out(&high, &first, 1)], vec![laid_out(&high, &second, 0); MOST_PLACES - 1]].concat(),
        [vec![zero.to_vec(); MOST_PLACES - 1], vec![laid_out(&high, &first, 0)]].concat(),
        [vec![zero.to_vec(); MOST_PLACES - 1], vec![laid_out(&high, &first, 2)]].concat(),
        places[..PLACE * MOST_PLACES / 2].repeat(2).chunks(PLACE).map(<[u8]>::to_vec).collect(),
        places.chunks(PLACE).rev().map(<[u8]>::to_vec).collect(),
    ];
    for list in lists {
        ask(harness, random, addresses.afi, &[header, &list.concat()].concat())?;
    }
    for _ in 0..20 {
        let mut memory = table.clone();
        for _ in 0..4 {
            disturb(random, &mut memory);
        }
        ask(harness, random, addresses.afi, &memory)?;
    }
    Ok(())
}

/// Memory of any octets; often the places have a route's sizes and NLRI header, or a whole route at their front.
fn any_memory(harness: &mut Harness, random: &mut Random, addresses: &Addresses) -> Checked {
    for round in 0..3_000 {
        let octets = if round % 8 == 0 { random.below(600) } else { size(random.below(5)) };
        let mut memory = random.octets(octets);
        let attributes = good_attributes();
        for place in memory.get_mut(HEADER..).unwrap_or(&mut []).chunks_exact_mut(PLACE) {
            let nlri = addresses.nlri(random);
            let front = laid_out(&nlri, picked(random, &attributes), random.octet());
            let end = random.pick(&[0, 0, 4, 2 + nlri.len(), PLACE - 2, PLACE - 1, PLACE]);
            place[..end].copy_from_slice(&front[..end]);
        }
        let afi = random.pick(&GOOD_AFIS);
        ask(harness, random, afi, &memory)?;
    }
    Ok(())
}

/// Small tables to which several things happened.
fn any_damage(harness: &mut Harness, random: &mut Random, addresses: &Addresses, cases: u64) -> Checked {
    for _ in 0..500 + cases / 100 {
        let places = random.pick(&[1, 2, 3, 3, 4, 5, 8, 16]);
        let count = random.below(places + 1);
        let mut memory = addresses.table(random, places, count).image();
        for _ in 0..random.below(6) {
            disturb(random, &mut memory);
        }
        let afi = if random.once_in(8) { 3 - addresses.afi } else { addresses.afi };
        ask(harness, random, afi, &memory)?;
    }
    Ok(())
}

/// One thing that happens to a table of a place or more: places exchanged, copied, zeroed, or with another attribute; an octet changed; a
/// header of noise.
fn disturb(random: &mut Random, memory: &mut [u8]) {
    let places = memory.len() / PLACE;
    let [one, other] = [random.below(places), random.below(places)].map(size);
    let octet = random.below(memory.len());
    let place: Vec<u8> = memory[one..one + PLACE].to_vec();
    match random.below(8) {
        0 => memory[..HEADER].copy_from_slice(&random.octets(HEADER)),
        1 => memory[octet] ^= 1 << random.below(8),
        2 => memory[octet] = random.octet(),
        3 => memory[one..one + PLACE].fill(0),
        4 => memory[one + PLACE - 1] ^= 1,
        5 => {
            memory.copy_within(other..other + PLACE, one);
            memory[other..other + PLACE].copy_from_slice(&place);
        }
        6 => memory.copy_within(other..other + PLACE, one),
        _ if place[0] > 0 && place[0] < 62 => {
            let nlri = &place[2..][..place[0].into()];
            let other_attribute = laid_out(nlri, picked(random, &good_attributes()), place[PLACE - 1]);
            memory[other..other + PLACE].copy_from_slice(&other_attribute);
        }
        _ => {}
    }
}
