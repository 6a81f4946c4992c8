//! Routes that name no tunnel (RFC 8556, section 4.1; document 02, W-202): examples with their answers, and tables where such
//! a route stands in each tier and at each distinguisher.

use super::flows::Asks;
use crate::{
    cases::{
        document::{in_papers, route},
        inputs::{
            lists::EMPTY,
            routes::{s_pmsi, Addresses, NO_TUNNEL},
            samples::GOOD_AFIS,
        },
        shared::matches::UPSTREAM,
        table::memory::OUTPUT,
    },
    compare::{Checked, Harness},
    coverage::{Call, Seen},
    ffi::Matched,
    hexadecimal::octets,
    second::{
        fault::Fault,
        matches::{choice::Flow, shared::Reception},
        table::{
            calls::{TableAnswer, TableCall},
            memory::Table,
        },
        Second,
    },
};

/// What it shows, the routes held, source, group, tier, route. Routes are named as in document 01; a small letter stands for
/// the route with tunnel type 0, and a 2 for the distinguisher that comes next.
pub const FLOWS: [(&str, &str, &str, &str, u32, &str); 11] = [
    ("a route that asks for tracking", "a B C D E", "C0000201", "E8010101", 2, "B"),
    ("the next distinguisher before a later tier", "a A2 B C D E", "C0000201", "E8010101", 1, "A2"),
    ("a later distinguisher names no tunnel", "A a2 B C D E", "C0000201", "E8010101", 1, "A"),
    ("two tiers", "a a2 b C D E", "C0000201", "E8010101", 4, "D"),
    ("every route for the flow", "a b C d E", "C0000201", "E8010101", 0, ""),
    ("every route of the router", "a b c d e", "C0000202", "EF010102", 0, ""),
    ("(C-S,C-*)", "b B2 D", "C0000201", "E8010102", 2, "B2"),
    ("(C-*,C-G)", "A B c D E", "C0000201", "EF010101", 4, "D"),
    ("(C-*,C-G) of the next distinguisher", "A B c C2 D", "C0000201", "EF010101", 3, "C2"),
    ("(C-*,C-*)", "A B C d D2 E", "C0000202", "E8010101", 4, "D2"),
    ("another route's tunnel", "A B C d E", "C0000202", "E8010101", 0, ""),
];

/// The same of the shared tree (C-*,239.1.1.1), with the PE upstream.
pub const SHARED_TREES: [(&str, &str, u32, &str); 4] = [
    ("(C-*,C-G)", "A B c D E", 4, "D"),
    ("(C-*,C-G) of the next distinguisher", "c C2 D", 3, "C2"),
    ("both kinds", "A B c d E", 0, ""),
    ("(C-*,C-*)", "C d", 3, "C"),
];

/// Attributes that name a tunnel, with flags and label fields that are 0 or not.
const TUNNELS: [&str; 4] = [
    "00 06 000000 0A000001",
    "01 06 00000F 0A000001",
    "00 0B 000010 01 0002 0A000001",
    "FF 03 FFFFFF 0A000001 E8000001",
];

/// The router of document 01's routes.
const ROUTER: [u8; 4] = [10, 0, 0, 1];

/// Where the last octet of the distinguisher stands in an NLRI.
const DISTINGUISHER_END: usize = 9;

/// NLRI and attribute of a route as the examples name it; no octets where the name has none.
pub fn named(name: &str) -> (Vec<u8>, Vec<u8>) {
    let letter = name.get(..1).unwrap_or("");
    let (mut nlri, mut attribute) = route(&letter.to_uppercase());
    if name.ends_with('2') {
        nlri[DISTINGUISHER_END] += 1;
    }
    if letter != letter.to_uppercase() {
        attribute = octets(NO_TUNNEL[1]);
    }
    (nlri, attribute)
}

/// The image of a table that holds these routes.
pub fn table_of(names: &str) -> Vec<u8> {
    let routes = names.split_whitespace().map(named).collect();
    Table::holding(1, 7, routes).image()
}

/// The whole answer of a match that takes this route.
pub fn answer(tier: u32, name: &str) -> TableAnswer {
    let (nlri, attribute) = named(name);
    let [nlri_size, attribute_size] = [&nlri, &attribute].map(|octets| octets.len() as u32);
    let mut output = [nlri, attribute].concat();
    output.resize(OUTPUT.len(), OUTPUT[0]);
    TableAnswer::Matched(Matched { number: 0, tier, nlri_size, attribute_size }, output)
}

pub fn ask_flow<Answer>(source: &str, group: &str, ask: impl FnOnce(&TableCall) -> Answer) -> Answer {
    let [source, group] = [source, group].map(octets);
    let flow = Flow { prefixes: EMPTY, router: &ROUTER, source: &source, group: &group };
    ask(&TableCall::Match { flow, output: &OUTPUT })
}

pub fn ask_shared_tree<Answer>(ask: impl FnOnce(&TableCall) -> Answer) -> Answer {
    let group = &[239, 1, 1, 1];
    let (prefixes, source_actives, states) = (EMPTY, EMPTY, EMPTY);
    let reception = Reception { prefixes, router: &ROUTER, group, facts: UPSTREAM, source_actives, states };
    ask(&TableCall::MatchShared { reception, output: &OUTPUT })
}

pub fn examples(harness: &mut Harness) -> Checked {
    for (shows, held, source, group, tier, name) in FLOWS {
        let got = ask_flow(source, group, |call| harness.table_call(&table_of(held), *call))?;
        in_papers(format!("document 02, W-202, {shows}"), got, answer(tier, name))?;
    }
    Ok(())
}

/// Routes of every tier and of so many distinguishers, for an SSM and an ASM group.
pub fn flows(harness: &mut Harness, distinguishers: usize, asks: Asks) -> Checked {
    for afi in GOOD_AFIS {
        let addresses = Addresses::of_family(afi);
        let source = &addresses.sources[0];
        for group in [&addresses.groups[0], &addresses.groups[2]] {
            let flow = Flow { prefixes: EMPTY, router: &addresses.routers[0], source, group };
            let shapes = [[source, &group[..]], [source, &[]], [&[], group], [&[], &[]]];
            every_choice(harness, &addresses, &shapes, distinguishers, asks(flow, &OUTPUT))?;
        }
    }
    Ok(())
}

pub fn shared_trees(harness: &mut Harness) -> Checked {
    for (shows, held, tier, name) in SHARED_TREES {
        let got = ask_shared_tree(|call| harness.table_call(&table_of(held), *call))?;
        in_papers(format!("document 02, W-202, shared tree, {shows}"), got, answer(tier, name))?;
    }
    for afi in GOOD_AFIS {
        let addresses = Addresses::of_family(afi);
        for group in &addresses.groups[2..4] {
            let (router, prefixes, source_actives, states) = (&addresses.routers[0], EMPTY, EMPTY, EMPTY);
            let reception = Reception { prefixes, router, group, facts: UPSTREAM, source_actives, states };
            let call = TableCall::MatchShared { reception, output: &OUTPUT };
            every_choice(harness, &addresses, &[[&[], group], [&[], &[]]], 3, call)?;
        }
    }
    Ok(())
}

/// Of each shape and distinguisher no route, one that names no tunnel, or one that names one: every choice.
fn every_choice(
    harness: &mut Harness,
    addresses: &Addresses,
    shapes: &[[&[u8]; 2]],
    distinguishers: usize,
    call: TableCall,
) -> Checked {
    let places = shapes.len() * distinguishers;
    for choice in 0..3_usize.pow(places as u32) {
        let mut table = Table::new(addresses.afi, places);
        for place in 0..places {
            let attributes = match choice / 3_usize.pow(place as u32) % 3 {
                0 => continue,
                1 => &NO_TUNNEL[..],
                _ => &TUNNELS,
            };
            let [source, group] = shapes[place / distinguishers];
            let distinguisher = &addresses.distinguishers[1 + place % distinguishers];
            let nlri = s_pmsi(distinguisher, source, group, &addresses.routers[0]);
            table.routes.insert(nlri, octets(attributes[(choice + place) % attributes.len()]));
        }
        let answer = harness.table_call(&table.image(), call)?;
        count(harness, table, &call, &answer);
    }
    Ok(())
}

/// Counts a match by its tier where a route that names no tunnel stands before the one that it takes.
fn count(harness: &mut Harness, mut table: Table, call: &TableCall, answer: &TableAnswer) {
    let (counted, unnamed) = match call {
        TableCall::MatchShared { .. } => (Call::MatchShared, Fault::NO_TUNNEL_TAKEN_SHARED),
        TableCall::Match { .. } => (Call::Match, Fault::NO_TUNNEL_TAKEN),
        _ => return,
    };
    let Some((matched, _)) = answer.matched() else { return };
    if Second::with_fault(unnamed).on_table(&mut table, call) != *answer {
        harness.coverage.count(counted, Seen::PassedOver(table.afi, matched.tier));
    }
}
