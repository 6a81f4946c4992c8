//! Routers that restart (document 02, W-208): examples with their answers and tables, every choice of marked routes, every value of
//! the octets about a mark, router addresses of every size, the largest tables, every list of four calls, and lists in which
//! routers restart again and again.

use super::{
    memory::OUTPUT,
    sequences::{self, Sequence},
};
use crate::{
    cases::{
        document::{in_papers, route, RD},
        inputs::{
            lists::EMPTY,
            places::{header, laid_out},
            routes::{bad_attributes, good_attributes, s_pmsi, Addresses},
            samples::GOOD_AFIS,
        },
        shared::matches::UPSTREAM,
    },
    compare::{Checked, Harness},
    ffi::{Installed, Restarted},
    hexadecimal::{encode, octets},
    random::Random,
    second::{
        matches::{choice::Flow, shared::Reception},
        table::{
            calls::{TableAnswer, TableCall},
            memory::{size, Routes, Table, MOST_PLACES, PLACE},
        },
    },
};

pub fn all(harness: &mut Harness, random: &mut Random, cases: u64) -> Checked {
    examples(harness)?;
    for afi in GOOD_AFIS {
        let addresses = Addresses::of_family(afi);
        marked_octets(harness, &addresses)?;
        sizes(harness, random, &addresses)?;
        every_choice(harness, &addresses)?;
        largest(harness, &addresses)?;
        [1, 2, 3].into_iter().try_for_each(|places| short_lists(harness, random, &addresses, places))?;
    }
    sequences::restarting(harness, random, cases)
}

// ---- examples

/// A call of the example: an install's attribute is the route's own, another, or one that is refused.
pub enum Step {
    Install(&'static str),
    Replace(&'static str),
    Refused(&'static str),
    Withdraw(&'static str),
    Mark(&'static str),
    Sweep(&'static str),
}

/// Two routers of the same four octets, one of them with twelve more, and another.
pub const ONE: &str = "0A000001";
pub const TWO: &str = "0A000002";
const WIDE: &str = "0A000001 00000000 00000000 00000000";

/// (C-*,C-*) routes of the other two routers; A to E are of the first.
const OTHERS: [(&str, &str, &str); 2] = [("F", "030E RD 00 00", TWO), ("G", "031A RD 00 00", WIDE)];

/// An attribute that no route of the examples has, and one that is refused: BIER with label 0.
const ANOTHER: &str = "07 06 000070 0A000007";
const REFUSED: &str = "00 0B 00000F 01 0002 0A000001";

/// What it shows, the call, its number, what an install did or how many went, and the routes held then, in a table of four
/// places: in the order of their NLRIs, a stroke behind those that are marked and a star behind those with the other attribute.
pub const EXAMPLE: [(&str, Step, u32, u32, &str); 29] = [
    ("no routes", Step::Mark(ONE), 0, 0, ""),
    ("a route", Step::Install("A"), 0, 1, "A"),
    ("another of its router", Step::Install("B"), 0, 1, "B A"),
    ("one of another router", Step::Install("F"), 0, 1, "F B A"),
    ("one of a router of sixteen octets", Step::Install("G"), 0, 1, "F B A G"),
    ("nothing is marked", Step::Sweep(ONE), 0, 0, "F B A G"),
    ("a router's routes are marked, and no others", Step::Mark(ONE), 0, 0, "F B' A' G"),
    ("another router restarts meanwhile", Step::Mark(TWO), 0, 0, "F' B' A' G"),
    ("the same attribute clears the mark", Step::Install("A"), 0, 2, "F' B' A G"),
    ("a refused install clears none", Step::Refused("B"), 9, 0, "F' B' A G"),
    ("a marked route makes no room", Step::Install("C"), 13, 0, "F' B' A G"),
    ("a restart within a restart: the marked one goes", Step::Mark(ONE), 0, 1, "F' A' G"),
    ("its room is used again", Step::Install("C"), 0, 1, "F' C A' G"),
    ("another attribute clears the mark", Step::Replace("A"), 0, 2, "F' C A* G"),
    ("nothing of this router is marked", Step::Sweep(ONE), 0, 0, "F' C A* G"),
    ("marked again", Step::Mark(ONE), 0, 0, "F' C' A*' G"),
    ("a marked route is withdrawn", Step::Withdraw("A"), 0, 0, "F' C' G"),
    ("and is absent", Step::Withdraw("A"), 14, 0, "F' C' G"),
    ("it comes back unmarked", Step::Install("A"), 0, 1, "F' C' A G"),
    ("what is still marked goes", Step::Sweep(ONE), 0, 1, "F' A G"),
    ("once", Step::Sweep(ONE), 0, 0, "F' A G"),
    ("sixteen octets that begin with the other router", Step::Mark(WIDE), 0, 0, "F' A G'"),
    ("and are swept alone", Step::Sweep(WIDE), 0, 1, "F' A"),
    ("three octets", Step::Mark("0A0000"), 15, 0, "F' A"),
    ("no octets", Step::Sweep(""), 15, 0, "F' A"),
    ("five octets", Step::Sweep("0A00000200"), 15, 0, "F' A"),
    ("a second mark of a router that did not come back", Step::Mark(TWO), 0, 1, "A"),
    ("a router that has no more routes", Step::Mark(TWO), 0, 0, "A"),
    ("a router that never had one", Step::Sweep("0A000003"), 0, 0, "A"),
];

/// The NLRI and the attribute of one of A to G.
pub fn named(name: &str) -> (Vec<u8>, Vec<u8>) {
    match OTHERS.iter().find(|(known, _, _)| *known == name) {
        Some((_, front, router)) => {
            (octets(&[&front.replace("RD", RD), *router].concat()), octets("00 06 000060 0A000001"))
        }
        None => route(name),
    }
}

/// The table of four places that holds these routes, laid out by hand.
pub fn table_of(held: &str) -> Vec<u8> {
    let places: Vec<Vec<u8>> = held.split_whitespace().map(place_of).collect();
    let mut table = [&header(1, places.len())[..], &places.concat()].concat();
    table.resize(8 + 4 * 128, 0);
    table
}

/// The place of one of these routes.
pub fn place_of(held: &str) -> Vec<u8> {
    let (nlri, own) = named(&held[..1]);
    let attribute = if held.contains('*') { octets(ANOTHER) } else { own };
    laid_out(&nlri, &attribute, held.contains('\'').into())
}

impl Step {
    /// Makes the call.
    pub fn ask<Answer>(&self, ask: impl FnOnce(&TableCall) -> Answer) -> Answer {
        let install = |name, attribute: Option<&str>| {
            let (nlri, own) = named(name);
            (nlri, attribute.map_or(own, octets))
        };
        let (nlri, attribute) = match self {
            Step::Install(name) | Step::Withdraw(name) => install(name, None),
            Step::Replace(name) => install(name, Some(ANOTHER)),
            Step::Refused(name) => install(name, Some(REFUSED)),
            Step::Mark(router) | Step::Sweep(router) => (octets(router), Vec::new()),
        };
        match self {
            Step::Install(_) | Step::Replace(_) | Step::Refused(_) => {
                ask(&TableCall::Install { nlri: &nlri, attribute: &attribute })
            }
            Step::Withdraw(_) => ask(&TableCall::Withdraw { nlri: &nlri }),
            Step::Mark(_) => ask(&TableCall::Mark { router: &nlri }),
            Step::Sweep(_) => ask(&TableCall::Sweep { router: &nlri }),
        }
    }

    /// The answer of this number, and of what an install did or of how many went.
    pub fn answer(&self, number: u32, told: u32) -> TableAnswer {
        match self {
            Step::Withdraw(_) => TableAnswer::Withdrawn(number),
            Step::Mark(_) | Step::Sweep(_) => TableAnswer::Restarted(Restarted { number, gone: told }),
            _ => TableAnswer::Installed(Installed { number, outcome: told }),
        }
    }
}

fn examples(harness: &mut Harness) -> Checked {
    let mut memory = table_of("");
    for (shows, step, number, told, held) in &EXAMPLE {
        let answer = step.ask(|call| harness.table_call(&memory, *call))?;
        memory = harness.table().to_vec();
        let asked = (step.answer(*number, *told), encode(&table_of(held)));
        in_papers(format!("document 02, W-208, {shows}"), (answer, encode(&memory)), asked)?;
        matches(harness, &memory, held)?;
    }
    Ok(())
}

/// P1 takes A where it is held, and router 10.0.0.2's flows take F, marked or not.
fn matches(harness: &mut Harness, memory: &[u8], held: &str) -> Checked {
    let [source, group] = ["C0000201", "E8010101"].map(octets);
    for (router, name, tier) in [(ONE, 'A', 1), (TWO, 'F', 4)] {
        let flow = Flow { prefixes: EMPTY, router: &octets(router), source: &source, group: &group };
        let answer = harness.table_call(memory, TableCall::Match { flow, output: &OUTPUT })?;
        let got = answer.matched().map(|(matched, _)| (matched.number, matched.tier == tier));
        in_papers(format!("document 02, W-208, {name} of {held:?} matches"), got, Some((0, held.contains(name))))?;
    }
    Ok(())
}

// ---- one table and every call

/// A table of four routes of each router: one for each tier of a flow.
fn of_routers(addresses: &Addresses, routers: &[usize], places: usize) -> Table {
    let (source, group, asm) = (&addresses.sources[0], &addresses.groups[0], &addresses.groups[2]);
    let attributes = good_attributes();
    let shapes = [[source, &group[..]], [source, &[]], [&[], asm], [&[], &[]]];
    let routes = routers.iter().flat_map(|router| shapes.map(|shape| (*router, shape))).enumerate();
    let routes: Routes = routes
        .map(|(at, (router, [source, group]))| {
            let distinguisher = &addresses.distinguishers[1 + at % 3];
            let nlri = s_pmsi(distinguisher, source, group, &addresses.routers[router]);
            (nlri, attributes[1 + at % (attributes.len() - 7)].clone())
        })
        .collect();
    Table::holding(addresses.afi, places, routes)
}

/// Each call on the memory: each router's marks, sweeps and matches of all kinds, an install and a withdrawal of each of these
/// NLRIs, a look into the table.
fn every_call(harness: &mut Harness, addresses: &Addresses, memory: &[u8], table: &Table) -> Checked {
    for router in &addresses.routers {
        harness.table_call(memory, TableCall::Mark { router })?;
        harness.table_call(memory, TableCall::Sweep { router })?;
        asked(harness, addresses, memory, router)?;
    }
    let (good, bad) = (good_attributes(), bad_attributes());
    for (at, (nlri, attribute)) in table.routes.iter().enumerate() {
        for attribute in [attribute, &good[at % good.len()], &bad[at % bad.len()]] {
            harness.table_call(memory, TableCall::Install { nlri, attribute })?;
        }
        harness.table_call(memory, TableCall::Withdraw { nlri })?;
        harness.next(memory, nlri, &OUTPUT)?;
    }
    let fresh = s_pmsi(&addresses.distinguishers[6], &[], &[], &addresses.routers[1]);
    harness.table_call(memory, TableCall::Install { nlri: &fresh, attribute: &good[1] })?;
    harness.next(memory, &[], &OUTPUT)?;
    harness.table_info(memory).map(drop)
}

/// A flow of each group and the shared trees, asked of a router.
fn asked(harness: &mut Harness, addresses: &Addresses, memory: &[u8], router: &[u8]) -> Checked {
    let (source, output) = (&addresses.sources[0], &OUTPUT);
    for group in &addresses.groups[..4] {
        let flow = Flow { prefixes: EMPTY, router, source, group };
        harness.table_call(memory, TableCall::Match { flow, output })?;
        harness.table_call(memory, TableCall::Explain { flow, output })?;
        let (prefixes, source_actives, states) = (EMPTY, EMPTY, EMPTY);
        let reception = Reception { prefixes, router, group, facts: UPSTREAM, source_actives, states };
        harness.table_call(memory, TableCall::MatchShared { reception, output })?;
    }
    Ok(())
}

/// Every value of the last two octets of a taken place, the first and the last of them, and of a free one.
fn marked_octets(harness: &mut Harness, addresses: &Addresses) -> Checked {
    let table = of_routers(addresses, &[0, 2], 10);
    let (router, taken) = (&addresses.routers[0], table.routes.len());
    for place in [0, taken - 1, taken, 9] {
        for (from_end, value) in (1..=3).flat_map(|from_end| (0..=255).map(move |value| (from_end, value))) {
            let mut memory = table.image();
            memory[size(place + 1) - from_end] = value;
            harness.table_call(&memory, TableCall::Mark { router })?;
            harness.table_call(&memory, TableCall::Sweep { router })?;
            if matches!(value, 0..=3 | 128 | 255) {
                every_call(harness, addresses, &memory, &table)?;
            }
        }
    }
    Ok(())
}

/// Router addresses of every size up to 40 and of sizes that are 4 or 16 in their low bits, on a table that is sound and on
/// memory that is not; what stands behind them is the rest of a router's address.
fn sizes(harness: &mut Harness, random: &mut Random, addresses: &Addresses) -> Checked {
    let mut table = of_routers(addresses, &[0, 1, 2, 4], 16);
    table.stale = table.routes.keys().filter(|_| random.once_in(2)).cloned().collect();
    let mut unsound = table.image();
    unsound[size(16) - 1] = 2;
    for router in &addresses.routers {
        let whole = [&router[..], &[0; 65_560]].concat();
        for size in (0..=40).chain([256, 260, 272, 65_540, 65_552]) {
            let (router, after) = whole.split_at(size);
            for memory in [&table.image()[..], &unsound, &[]] {
                for call in [TableCall::Mark { router }, TableCall::Sweep { router }] {
                    harness.table_call_before(memory, call, &after[..after.len().min(16)])?;
                }
            }
        }
    }
    Ok(())
}

/// Every choice of marked routes of two routers that share octets, with the places all taken and with one free.
fn every_choice(harness: &mut Harness, addresses: &Addresses) -> Checked {
    for (routers, free) in [([0, 2], 0), ([0, 3], 1)] {
        let mut table = of_routers(addresses, &routers, 8 + free);
        let nlris: Vec<Vec<u8>> = table.routes.keys().cloned().collect();
        for choice in 0..1_usize << nlris.len() {
            let chosen = nlris.iter().enumerate().filter(|(at, _)| choice >> at & 1 == 1);
            table.stale = chosen.map(|(_, nlri)| nlri.clone()).collect();
            every_call(harness, addresses, &table.image(), &table)?;
        }
    }
    Ok(())
}

/// The most places, of which a router has none, half or all, and of these none, half or all are marked.
fn largest(harness: &mut Harness, addresses: &Addresses) -> Checked {
    let attribute = &good_attributes()[1];
    // Of two routes so many are the router's, and of two in turn of these so many are marked.
    for (own, marked) in [0, 1, 2].into_iter().flat_map(|own| [0, 1, 2].map(|marked| (own, marked))) {
        let chosen = |at: usize, of_two: usize| at % 2 < of_two;
        let mut table = Table::new(addresses.afi, MOST_PLACES);
        for at in 0..MOST_PLACES {
            let router = &addresses.routers[if chosen(at, own) { 0 } else { 1 }];
            let distinguisher = [&[0; 6][..], &(at as u16).to_be_bytes()].concat();
            let nlri = s_pmsi(&distinguisher, &addresses.sources[0], &[], router);
            if chosen(at / 2, marked) {
                table.stale.insert(nlri.clone());
            }
            table.routes.insert(nlri, attribute.clone());
        }
        let memory = table.image();
        for router in &addresses.routers[..3] {
            harness.table_call(&memory, TableCall::Mark { router })?;
            harness.table_call(&memory, TableCall::Sweep { router })?;
        }
        let mut damaged = memory;
        damaged[size(250) + PLACE - 1] = 2;
        harness.table_call(&damaged, TableCall::Mark { router: &addresses.routers[0] })?;
    }
    Ok(())
}

// ---- lists of calls

/// Every list of four calls, of these: installs that are accepted and refused, withdrawals and matches of two routers, their marks
/// and sweeps, and a mark and a sweep of nobody.
fn short_lists(harness: &mut Harness, random: &mut Random, addresses: &Addresses, places: usize) -> Checked {
    let Addresses { distinguishers, sources, groups, routers, .. } = addresses;
    let nlris = [(0, 1), (0, 2), (2, 1)].map(|(router, distinguisher)| {
        s_pmsi(&distinguishers[distinguisher], &sources[0], &groups[0], &routers[router])
    });
    let (good, bad) = (good_attributes(), bad_attributes());
    let install = |nlri: usize, attribute| TableCall::Install { nlri: &nlris[nlri], attribute };
    let flow = Flow { prefixes: EMPTY, router: &routers[0], source: &sources[0], group: &groups[0] };
    let calls = [
        install(0, &good[1]),
        install(0, &good[2]),
        install(0, &bad[8]),
        install(1, &good[1]),
        install(2, &good[1]),
        TableCall::Withdraw { nlri: &nlris[0] },
        TableCall::Mark { router: &routers[0] },
        TableCall::Mark { router: &routers[2] },
        TableCall::Sweep { router: &routers[0] },
        TableCall::Sweep { router: &routers[2] },
        TableCall::Mark { router: &routers[0][..3] },
        TableCall::Match { flow, output: &OUTPUT },
    ];
    for choice in 0..calls.len().pow(4) {
        let list = [0, 1, 2, 3].map(|at| calls[choice / calls.len().pow(at) % calls.len()]);
        Sequence::of(addresses.afi, places, list.to_vec()).run(harness, random, &[0, 1, 2, 3], None)?;
    }
    Ok(())
}
