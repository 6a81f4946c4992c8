//! Matching for shared trees: each condition alone and with others, the routes held, routers, groups and output sizes, and
//! any of these together.

use super::{examples, refusals};
use crate::{
    cases::{
        inputs::{
            lists::{list, Item, EMPTY},
            routes::{good_attributes, picked, s_pmsi, source_active, Addresses, SSM_GROUPS},
            samples::GOOD_AFIS,
        },
        table::memory::OUTPUT,
    },
    compare::{Checked, Harness},
    ffi::SharedTree,
    random::Random,
    second::{
        matches::{
            choice::LEAST_OUTPUT,
            shared::{Reception, MOST_ITEMS},
        },
        table::{
            calls::TableCall,
            memory::{Routes, Table},
        },
    },
};

/// Random receptions of each family: so many, and one more for so many random cases.
const ROUNDS: u64 = 4_000;
const CASES_A_ROUND: u64 = 60;

pub fn all(harness: &mut Harness, random: &mut Random, cases: u64) -> Checked {
    examples::all(harness)?;
    for afi in GOOD_AFIS {
        let addresses = Addresses::of_family(afi);
        conditions(harness, random, &addresses)?;
        facts(harness, random, &addresses)?;
        source_actives(harness, random, &addresses)?;
        every_octet(harness, random, &addresses)?;
        full_lists(harness, random, &addresses)?;
        outputs(harness, random, &addresses)?;
        groups(harness, random, &addresses)?;
        refusals::all(harness, random, &addresses)?;
        for round in 0..ROUNDS + cases / CASES_A_ROUND {
            any(harness, random, &addresses, round)?;
        }
    }
    Ok(())
}

pub fn matched(harness: &mut Harness, memory: &[u8], reception: Reception, output: &[u8]) -> Checked {
    harness.table_call(memory, TableCall::MatchShared { reception, output }).map(drop)
}

/// The first fact alone.
pub const UPSTREAM: SharedTree = SharedTree { upstream: 1, bidirectional: 0, source_active_unused: 0 };

/// Facts by the bits of a number.
fn told(bits: u32) -> SharedTree {
    SharedTree { upstream: bits & 1, bidirectional: bits >> 1 & 1, source_active_unused: bits >> 2 & 1 }
}

/// A table with a (C-*,C-G) and a (C-*,C-*) route of each router, for the first ASM group.
pub fn table_of_all(random: &mut Random, addresses: &Addresses) -> Vec<u8> {
    let (group, wildcard) = (&addresses.groups[2], Vec::new());
    let shapes = addresses.routers.iter().flat_map(|router| [(router, group), (router, &wildcard)]);
    let attributes = good_attributes();
    let route = |(router, group): (&Vec<u8>, &Vec<u8>)| {
        let nlri = s_pmsi(picked(random, &addresses.distinguishers), &[], group, router);
        (nlri, picked(random, &attributes).to_vec())
    };
    let routes: Routes = shapes.map(route).collect();
    Table::holding(addresses.afi, routes.len() + 1, routes).image()
}

/// Every choice among the four conditions and among the kinds of route held, each kind with two distinguishers, for SSM
/// and ASM groups and for PEs of both sizes; asked of every router. A listed route is for the group asked, or for an ASM group.
fn conditions(harness: &mut Harness, random: &mut Random, addresses: &Addresses) -> Checked {
    for (holder, group) in
        [0, 4].into_iter().flat_map(|holder| addresses.groups[..4].iter().map(move |it| (holder, it)))
    {
        for held in 0..16 {
            let memory = table_of(random, addresses, &addresses.routers[holder], group, held);
            for (conditions, router) in (0..16).flat_map(|bits| addresses.routers.iter().map(move |it| (bits, it))) {
                let active = if addresses.groups[..SSM_GROUPS].contains(group) { &addresses.groups[2] } else { group };
                let nlri = source_active(picked(random, &addresses.distinguishers), &addresses.sources[0], active);
                let active = list(&[[router.clone(), nlri]]);
                let source_actives = if conditions & 8 == 0 { EMPTY } else { &active };
                let facts = told(conditions & 7);
                let reception = Reception { prefixes: EMPTY, router, group, facts, source_actives, states: EMPTY };
                matched(harness, &memory, reception, &OUTPUT)?;
            }
        }
    }
    Ok(())
}

/// A table of one router with the kinds of route that the bits choose, two of each at the most.
fn table_of(random: &mut Random, addresses: &Addresses, router: &[u8], group: &[u8], held: u32) -> Vec<u8> {
    let attributes = good_attributes();
    let source = &addresses.sources[0][..];
    let shapes: [[&[u8]; 2]; 4] = [[&[], group], [&[], &[]], [source, group], [source, &[]]];
    let chosen = shapes.into_iter().chain(shapes).enumerate().filter(|(bit, _)| held >> (bit % 4) & 1 == 1);
    let route = |(_, [source, group]): (usize, [&[u8]; 2])| {
        let nlri = s_pmsi(picked(random, &addresses.distinguishers), source, group, router);
        (nlri, picked(random, &attributes).to_vec())
    };
    let routes = chosen.map(route).collect();
    Table::holding(addresses.afi, 8, routes).image()
}

/// Facts of any value: 0 is no, every other value yes.
fn facts(harness: &mut Harness, random: &mut Random, addresses: &Addresses) -> Checked {
    let memory = table_of_all(random, addresses);
    let values = [0, 1, 2, 255, 256, 65_536, 1 << 31, u32::MAX];
    for (upstream, bidirectional) in values.iter().flat_map(|first| values.map(|second| (*first, second))) {
        for source_active_unused in values {
            let facts = SharedTree { upstream, bidirectional, source_active_unused };
            let (router, group) = (&addresses.routers[0], &addresses.groups[2]);
            let reception = Reception { prefixes: EMPTY, router, group, facts, source_actives: EMPTY, states: EMPTY };
            matched(harness, &memory, reception, &OUTPUT)?;
        }
    }
    Ok(())
}

/// One and two Source Active routes of every router, for two groups and two sources, with every choice of the four states;
/// asked of PEs of both sizes.
fn source_actives(harness: &mut Harness, random: &mut Random, addresses: &Addresses) -> Checked {
    let Addresses { distinguishers, sources, groups, routers, .. } = addresses;
    let memory = table_of_all(random, addresses);
    let flows: Vec<Item> = sources[..2]
        .iter()
        .flat_map(|source| groups[2..4].iter().map(|group| [source.clone(), group.clone()]))
        .collect();
    let routes: Vec<Item> = routers
        .iter()
        .flat_map(|router| flows.iter().map(move |[source, group]| (router, source, group)))
        .map(|(router, source, group)| [router.clone(), source_active(picked(random, distinguishers), source, group)])
        .collect();
    let alone = routes.iter().map(|route| vec![route.clone()]);
    let pairs = routes.iter().flat_map(|first| routes.iter().map(|second| vec![first.clone(), second.clone()]));
    for items in alone.chain(pairs) {
        for held in 0..16 {
            let states = flows.iter().enumerate().filter(|(bit, _)| held >> bit & 1 == 1).map(|(_, flow)| flow.clone());
            let [source_actives, states] = [list(&items), list(&states.collect::<Vec<_>>())];
            let (group, facts) = (&groups[2], SharedTree::default());
            for router in [&routers[0], &routers[4]] {
                let reception = Reception {
                    prefixes: EMPTY,
                    router,
                    group,
                    facts,
                    source_actives: &source_actives,
                    states: &states,
                };
                matched(harness, &memory, reception, &OUTPUT)?;
            }
        }
    }
    Ok(())
}

/// A Source Active route and its state, where any octet of the PE, of the group asked or of a listed address is another:
/// addresses are compared whole.
fn every_octet(harness: &mut Harness, random: &mut Random, addresses: &Addresses) -> Checked {
    let Addresses { distinguishers, sources, groups, routers, .. } = addresses;
    let memory = table_of_all(random, addresses);
    for router in [&routers[0], &routers[4]] {
        // PE and group asked; originator, source and group of the route; source and group of the state.
        let same = [router, &groups[2], router, &sources[0], &groups[2], &sources[0], &groups[2]];
        for (changed, place) in (0..same.len()).flat_map(|part| (0..same[part].len()).map(move |place| (part, place))) {
            let mut parts = same.map(Vec::clone);
            parts[changed][place] ^= random.pick(&[1, 2, 0x80]);
            let [router, group, originator, source, active_group, state_source, state_group] = &parts;
            let nlri = source_active(&distinguishers[1], source, active_group);
            let active = list(&[[originator.clone(), nlri]]);
            let state = list(&[[state_source.clone(), state_group.clone()]]);
            let none = SharedTree::default();
            for (facts, states) in [(none, &state[..]), (none, EMPTY), (UPSTREAM, EMPTY)] {
                let reception = Reception { prefixes: EMPTY, router, group, facts, source_actives: &active, states };
                matched(harness, &memory, reception, &OUTPUT)?;
            }
        }
    }
    Ok(())
}

/// Lists of up to the most items where one Source Active route alone has no state, or one state alone corresponds.
fn full_lists(harness: &mut Harness, random: &mut Random, addresses: &Addresses) -> Checked {
    let Addresses { distinguishers, groups, routers, .. } = addresses;
    let memory = table_of_all(random, addresses);
    let group = &groups[2];
    let sources: Vec<Vec<u8>> = (0..MOST_ITEMS).map(|at| numbered(&addresses.sources[0], at)).collect();
    let route = |source: &Vec<u8>| [routers[0].clone(), source_active(&distinguishers[1], source, group)];
    let state = |source: &Vec<u8>| [source.clone(), group.clone()];
    let routes: Vec<Item> = sources.iter().map(route).collect();
    let states: Vec<Item> = sources.iter().rev().map(state).collect();
    for at in [0, 1, 2, 127, 128, 129, 253, 254, 255] {
        let [mut without, mut another] = [states.clone(), states.clone()];
        without.remove(at);
        another[at] = state(&addresses.sources[2]);
        let source = sources.len() - 1 - at;
        for (routes, states) in [
            (&routes[..], &states[..]),
            (&routes, &without),
            (&routes, &another),
            (&routes[source..=source], &states),
            (&routes[source..=source], &without),
        ] {
            let [source_actives, states] = [routes, states].map(list);
            let (router, facts) = (&routers[0], SharedTree::default());
            let reception =
                Reception { prefixes: EMPTY, router, group, facts, source_actives: &source_actives, states: &states };
            matched(harness, &memory, reception, &OUTPUT)?;
        }
    }
    Ok(())
}

/// The address with a number in its last octets.
fn numbered(address: &[u8], number: usize) -> Vec<u8> {
    let (front, _) = address.split_at(address.len() - 2);
    [front, &(number as u16).to_be_bytes()].concat()
}

/// Every output size up to and past the least, for the longest answer, a short one, and three ways to none.
fn outputs(harness: &mut Harness, random: &mut Random, addresses: &Addresses) -> Checked {
    let (routers, groups) = (&addresses.routers, &addresses.groups);
    let attributes = good_attributes();
    let mut routes = Routes::new();
    for (router, group, size) in [(4, &groups[2][..], 64), (0, &[], 9)] {
        let nlri = s_pmsi(&addresses.distinguishers[0], &[], group, &routers[router]);
        let attribute = attributes.iter().find(|attribute| attribute.len() == size).expect("an attribute of that size");
        routes.insert(nlri, attribute.clone());
    }
    let memory = Table::holding(addresses.afi, 2, routes).image();
    for room in (0..=LEAST_OUTPUT + 10).chain([200, 256 + 60, 65_536]) {
        let output = random.octets(room);
        for (router, group, bits) in [(4, 2, 1), (0, 2, 2), (0, 2, 0), (1, 2, 4), (0, 0, 7)] {
            let (router, group, facts) = (&routers[router], &groups[group], told(bits));
            let reception = Reception { prefixes: EMPTY, router, group, facts, source_actives: EMPTY, states: EMPTY };
            matched(harness, &memory, reception, &output)?;
        }
    }
    Ok(())
}

/// Shared trees of any group: every first octet, and second octets about the SSM range.
fn groups(harness: &mut Harness, random: &mut Random, addresses: &Addresses) -> Checked {
    let memory = table_of_all(random, addresses);
    for (first, second) in (0..=255).flat_map(|first| [0, 0x2F, 0x30, 0x3F, 0x40, 0xFF].map(|second| (first, second))) {
        let mut group = random.octets(addresses.groups[0].len());
        group[..4].copy_from_slice(&[first, second, 0, random.pick(&[0, 0, 1])]);
        let (router, facts) = (&addresses.routers[0], told(1 << random.below(3)));
        let reception =
            Reception { prefixes: EMPTY, router, group: &group, facts, source_actives: EMPTY, states: EMPTY };
        matched(harness, &memory, reception, &OUTPUT)?;
    }
    Ok(())
}

/// Any table, shared tree, facts and lists; mostly good, and half the time no fact.
fn any(harness: &mut Harness, random: &mut Random, addresses: &Addresses, round: u64) -> Checked {
    let count = round as usize % 12;
    let places = count + random.below(3);
    let memory = addresses.table(random, places, count).image();
    let [source_actives, states] = [addresses.source_actives(random), addresses.states(random)];
    let flow = addresses.flow(random);
    let facts = any_facts(random);
    let router = if random.once_in(2) { &addresses.routers[0] } else { flow.router };
    let group = if random.once_in(2) { &addresses.groups[2] } else { flow.group };
    let prefixes = flow.prefixes;
    let reception = Reception { prefixes, router, group, facts, source_actives: &source_actives, states: &states };
    let room = if random.once_in(12) { random.below(LEAST_OUTPUT) } else { OUTPUT.len() };
    matched(harness, &memory, reception, &OUTPUT[..room])
}

/// Half the time none; else each of the three or none.
pub fn any_facts(random: &mut Random) -> SharedTree {
    match random.once_in(2) {
        true => SharedTree::default(),
        false => told(random.below(8) as u32),
    }
}
