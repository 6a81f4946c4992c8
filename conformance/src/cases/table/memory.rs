//! The table calls on sound, nearly sound and any other memory.

use crate::{
    cases::{
        inputs::{
            damage::DAMAGES,
            lists::EMPTY,
            routes::{bad_attributes, bad_nlris, good_attributes, picked, s_pmsi, Addresses},
            samples::{BAD_AFIS, GOOD_AFIS},
        },
        shared::matches::UPSTREAM,
    },
    compare::{Checked, Harness, Input},
    coverage::PLACES,
    random::Random,
    second::{
        matches::{choice::Flow, shared::Reception},
        table::{
            calls::TableCall,
            memory::{size, Table, MOST_PLACES, PLACE},
        },
    },
};

/// An output with more than enough room.
pub const OUTPUT: [u8; 130] = [0xA5; 130];

pub fn all(harness: &mut Harness, random: &mut Random) -> Checked {
    making(harness, random)?;
    for afi in GOOD_AFIS {
        let addresses = Addresses::of_family(afi);
        refusals(harness, random, &addresses)?;
        argument_octets(harness, random, &addresses)?;
        for places in PLACES {
            damaged(harness, random, &addresses, places)?;
        }
        header_fields(harness, random, &addresses)?;
        memory_sizes(harness, random, &addresses)?;
        every_octet(harness, random, &addresses)?;
        any_memory(harness, random, &addresses)?;
    }
    Ok(())
}

/// Making a table in any memory: every size about a few places and about the most, every AFI.
fn making(harness: &mut Harness, random: &mut Random) -> Checked {
    let whole = random.octets(size(520));
    let about = |places: usize| size(places) - 2..=size(places) + 2;
    let sizes = (0..=size(3)).chain(about(16)).chain(about(MOST_PLACES)).chain(about(MOST_PLACES + 1));
    // 512 places have the octets of none in the low 16 bits of their size.
    for octets in sizes.chain([size(512)]) {
        for afi in GOOD_AFIS.into_iter().chain(BAD_AFIS) {
            harness.inputs += 1;
            harness.make(afi, Input { octets: &whole[..octets], after: &whole[octets..octets + PLACE] })?;
        }
    }
    Ok(())
}

/// Every pair of a good or bad NLRI and a good or bad attribute, on tables with and without room and on no table: the
/// order of refusals.
fn refusals(harness: &mut Harness, random: &mut Random, addresses: &Addresses) -> Checked {
    for (places, count) in [(0, 0), (1, 1), (2, 0), (2, 1), (2, 2), (16, 9), (16, 16)] {
        let table = addresses.table(random, places, count);
        let mut unsound = table.image();
        unsound[3] = 1;
        let held = table.routes.keys().next().cloned();
        let fresh = addresses.nlris(random, count + 2).into_iter().filter(|nlri| !table.routes.contains_key(nlri));
        let nlris: Vec<_> = bad_nlris(addresses.afi).into_iter().chain(held).chain(fresh.take(2)).collect();
        for memory in [table.image(), unsound] {
            for nlri in &nlris {
                harness.table_call(&memory, TableCall::Withdraw { nlri })?;
                for attribute in bad_attributes().iter().chain(&good_attributes()) {
                    harness.table_call(&memory, TableCall::Install { nlri, attribute })?;
                }
            }
        }
    }
    Ok(())
}

/// Every truncation and extension, and every other value at each place, of an NLRI and of an attribute.
fn argument_octets(harness: &mut Harness, random: &mut Random, addresses: &Addresses) -> Checked {
    let table = addresses.table(random, 3, 2);
    let (held, attribute) = table.routes.iter().next_back().expect("two routes");
    let memory = table.image();
    for cut in 0..=held.len() {
        let (nlri, after) = held.split_at(cut);
        harness.table_call_before(&memory, TableCall::Withdraw { nlri }, after)?;
        harness.table_call_before(&memory, TableCall::Install { nlri, attribute }, after)?;
    }
    for cut in 0..=attribute.len() {
        let (attribute, after) = attribute.split_at(cut);
        harness.table_call_before(&memory, TableCall::Install { nlri: held, attribute }, after)?;
    }
    for (place, difference) in (0..held.len()).flat_map(|place| [1, 2, 0x80, 0xFF].map(|value| (place, value))) {
        let mut nlri = held.clone();
        nlri[place] ^= difference;
        harness.table_call(&memory, TableCall::Withdraw { nlri: &nlri })?;
        harness.table_call(&memory, TableCall::Install { nlri: &nlri, attribute })?;
    }
    for extra in [1, 4, 128, 256, 65_536] {
        let [nlri, attribute] = [held, attribute].map(|octets| [octets.clone(), vec![0; extra]].concat());
        harness.table_call(&memory, TableCall::Withdraw { nlri: &nlri })?;
        harness.table_call(&memory, TableCall::Install { nlri: &nlri, attribute: &good_attributes()[0] })?;
        harness.table_call(&memory, TableCall::Install { nlri: held, attribute: &attribute })?;
    }
    Ok(())
}

/// Each damage done to tables with no, some and all places taken.
fn damaged(harness: &mut Harness, random: &mut Random, addresses: &Addresses, places: usize) -> Checked {
    let rounds = if places > 16 { 1 } else { 12 };
    for count in [0, 1, places / 2, places].into_iter().filter(|count| *count <= places) {
        for _ in 0..rounds {
            let table = addresses.table(random, places, count);
            each_call(harness, random, addresses, &table, &table.image())?;
            for damage in DAMAGES {
                let mut memory = table.image();
                damage(random, &mut memory, count);
                each_call(harness, random, addresses, &table, &memory)?;
            }
        }
    }
    Ok(())
}

/// Each call on memory that is, or once was, the table's: held routes and others.
fn each_call(
    harness: &mut Harness,
    random: &mut Random,
    addresses: &Addresses,
    table: &Table,
    memory: &[u8],
) -> Checked {
    let flow = addresses.flow(random);
    let output = &OUTPUT;
    let asked = if random.once_in(3) { TableCall::Explain { flow, output } } else { TableCall::Match { flow, output } };
    harness.table_call(memory, asked)?;
    let Flow { prefixes, router, group, .. } = flow;
    let reception = Reception { prefixes, router, group, facts: UPSTREAM, source_actives: EMPTY, states: EMPTY };
    harness.table_call(memory, TableCall::MatchShared { reception, output: &OUTPUT })?;
    let restart = if random.once_in(2) { TableCall::Mark { router } } else { TableCall::Sweep { router } };
    harness.table_call(memory, restart)?;
    let held: Vec<_> = table.routes.keys().cloned().collect();
    let nlri = match held.is_empty() || random.once_in(2) {
        true => addresses.nlri(random),
        false => picked(random, &held).to_vec(),
    };
    let attributes = good_attributes();
    let attribute = picked(random, &attributes);
    harness.table_call(memory, TableCall::Install { nlri: &nlri, attribute })?;
    harness.table_call(memory, TableCall::Withdraw { nlri: &nlri })?;
    match random.once_in(2) {
        true => harness.next(memory, &nlri, &OUTPUT).map(drop),
        false => harness.table_info(memory).map(drop),
    }
}

/// A match of one flow, which a (C-*,C-*) route of its router takes too.
fn match_any(harness: &mut Harness, addresses: &Addresses, memory: Input) -> Checked {
    let (router, source, group) = (&addresses.routers[0], &addresses.sources[0], &addresses.groups[0]);
    let flow = Flow { prefixes: EMPTY, router, source, group };
    harness.table_call(memory, TableCall::Match { flow, output: &OUTPUT }).map(drop)
}

/// Every value of each header octet, and counts about the places.
fn header_fields(harness: &mut Harness, random: &mut Random, addresses: &Addresses) -> Checked {
    for (places, count) in [(0, 0), (1, 0), (1, 1), (3, 2), (16, 16)] {
        let table = addresses.table(random, places, count);
        for (place, value) in (0..8).flat_map(|place| (0..=255).map(move |value| (place, value))) {
            let mut memory = table.image();
            memory[place] = value;
            match_any(harness, addresses, Input::from(&memory))?;
            if value < 4 {
                each_call(harness, random, addresses, &table, &memory)?;
            }
        }
    }
    Ok(())
}

/// Tables cut to every size with the rest behind them, and the longest tables with a few octets more or fewer.
fn memory_sizes(harness: &mut Harness, random: &mut Random, addresses: &Addresses) -> Checked {
    for count in 0..=3 {
        let image = addresses.table(random, 3, count).image();
        for octets in 0..=image.len() {
            match_any(harness, addresses, Input::cut(&image, octets))?;
        }
        let table = addresses.table(random, MOST_PLACES, count);
        let whole = [table.image(), vec![0; size(20)]].concat();
        let sizes = [1, 128].into_iter().flat_map(|more| [size(MOST_PLACES) - more, size(MOST_PLACES) + more]);
        for octets in sizes.chain([size(MOST_PLACES), size(512)]) {
            match_any(harness, addresses, Input::cut(&whole, octets))?;
            each_call(harness, random, addresses, &table, &whole[..octets])?;
        }
    }
    Ok(())
}

/// Every other value at each octet of tables with a place taken and one free: a route for a single flow, and one for all.
/// Some other values at each octet of a table with two places taken.
fn every_octet(harness: &mut Harness, random: &mut Random, addresses: &Addresses) -> Checked {
    let Addresses { distinguishers, sources, groups, routers, .. } = addresses;
    let attribute = good_attributes().swap_remove(1);
    for (source, group) in [(&sources[0][..], &groups[0][..]), (&[], &[])] {
        let mut table = Table::new(addresses.afi, 2);
        table.routes.insert(s_pmsi(&distinguishers[1], source, group, &routers[0]), attribute.clone());
        changes(harness, random, addresses, &table, 255)?;
    }
    let two = addresses.table(random, 3, 2);
    changes(harness, random, addresses, &two, 8)
}

/// Other values at each octet of the table, so many of them.
fn changes(
    harness: &mut Harness,
    random: &mut Random,
    addresses: &Addresses,
    table: &Table,
    differences: u8,
) -> Checked {
    let mut memory = table.image();
    for place in 0..memory.len() {
        let kept = memory[place];
        for difference in 1..=differences {
            memory[place] = kept ^ difference;
            match_any(harness, addresses, Input::from(&memory))?;
        }
        each_call(harness, random, addresses, table, &memory)?;
        memory[place] = kept;
    }
    Ok(())
}

/// Memory of any octets; now and then with a good header in front.
fn any_memory(harness: &mut Harness, random: &mut Random, addresses: &Addresses) -> Checked {
    let none = Table::new(addresses.afi, 0);
    for round in 0..2_000 {
        let octets = match round % 4 {
            0 => random.below(600),
            _ => size(random.pick(&[0, 1, 2, 3, 16])),
        };
        let mut memory = random.octets(octets);
        if random.once_in(2) && octets >= 8 {
            memory[..8].copy_from_slice(&none.image());
            memory[7] = random.pick(&[0, 1, 1, 2]);
        }
        each_call(harness, random, addresses, &none, &memory)?;
    }
    Ok(())
}
