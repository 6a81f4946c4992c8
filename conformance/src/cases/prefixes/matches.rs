//! Prefixes for source-specific groups (document 02, W-209), in matches, explanations and matches for shared trees: prefixes that turn
//! each tier, every length, each place of a list, lists that are cut, the order of refusals, and lists of calls whose matches have
//! different prefixes.

use super::{classes::lists_of_prefixes, examples::ASKS};
use crate::{
    cases::{
        inputs::{
            lists::{counting, list, prefix_of, EMPTY},
            routes::{good_attributes, picked, s_pmsi, Addresses},
        },
        shared::matches::{any_facts, UPSTREAM},
        table::{memory::OUTPUT, sequences::Sequence},
    },
    compare::{Checked, Harness},
    coverage::{Call, Seen},
    random::Random,
    second::{
        groups::prefixes::MOST_PREFIXES,
        matches::{
            choice::{Flow, LEAST_OUTPUT},
            shared::Reception,
        },
        table::{
            calls::{TableAnswer, TableCall},
            memory::{Routes, Table},
        },
        Second,
    },
};
use std::slice::from_ref;

/// Tables with each choice of routes.
const TURNS: usize = 40;

pub fn all(harness: &mut Harness, random: &mut Random, addresses: &Addresses) -> Checked {
    turns(harness, random, addresses)?;
    lengths(harness, addresses)?;
    lists(harness, addresses)?;
    order(harness, addresses)?;
    order_of_shared(harness, addresses)?;
    [1, 2].into_iter().try_for_each(|places| short_lists(harness, random, addresses, places))
}

/// A match, an explanation and a match for a shared tree of the flow, with `after` right behind each argument.
fn each(harness: &mut Harness, memory: &[u8], flow: Flow, after: &[u8]) -> Checked {
    for asks in ASKS {
        let answer = harness.table_call_before(memory, asks(flow, &OUTPUT), after)?;
        count(harness, memory, &asks(flow, &OUTPUT), &answer);
    }
    let reception = shared_tree(flow);
    let call = TableCall::MatchShared { reception, output: &OUTPUT };
    let answer = harness.table_call_before(memory, call, after)?;
    count(harness, memory, &call, &answer);
    Ok(())
}

/// The shared tree of a flow's group, with the PE upstream.
fn shared_tree(Flow { prefixes, router, group, .. }: Flow) -> Reception {
    Reception { prefixes, router, group, facts: UPSTREAM, source_actives: EMPTY, states: EMPTY }
}

/// Counts a match whose tier is another than without its prefixes.
fn count(harness: &mut Harness, memory: &[u8], call: &TableCall, answer: &TableAnswer) {
    let (counted, by_standard) = match *call {
        TableCall::Match { flow, output } => {
            (Call::Match, TableCall::Match { flow: Flow { prefixes: EMPTY, ..flow }, output })
        }
        TableCall::Explain { flow, output } => {
            (Call::Explain, TableCall::Explain { flow: Flow { prefixes: EMPTY, ..flow }, output })
        }
        TableCall::MatchShared { reception, output } => {
            let reception = Reception { prefixes: EMPTY, ..reception };
            (Call::MatchShared, TableCall::MatchShared { reception, output })
        }
        _ => return,
    };
    let (standard, _) = Second::sound().on_memory(memory, &by_standard);
    if let (Some((before, _)), Some((after, _))) = (standard.matched(), answer.matched()) {
        let afi = u16::from(memory[5]);
        if after.number == 0 && before.tier != after.tier {
            harness.coverage.count(counted, Seen::Turned(afi, before.tier, after.tier));
        }
    }
}

/// Every choice among the four tiers' routes, for groups of both classes by the standard range, with each list of prefixes.
fn turns(harness: &mut Harness, random: &mut Random, addresses: &Addresses) -> Checked {
    let attributes = good_attributes();
    let (source, wildcard) = (&addresses.sources[0], Vec::new());
    for (group, chosen) in addresses.groups[..4].iter().flat_map(|group| (0..16).map(move |chosen| (group, chosen))) {
        let shapes = [(source, group), (source, &wildcard), (&wildcard, group), (&wildcard, &wildcard)];
        for _ in 0..TURNS {
            let router = picked(random, &addresses.routers);
            let mut routes = Routes::new();
            for (source, group) in shapes.iter().enumerate().filter(|(bit, _)| chosen >> bit & 1 == 1).map(|(_, it)| it)
            {
                let nlri = s_pmsi(picked(random, &addresses.distinguishers), source, group, router);
                routes.insert(nlri, picked(random, &attributes).to_vec());
            }
            let memory = Table::holding(addresses.afi, 5, routes).image();
            for prefixes in &addresses.prefixes {
                each(harness, &memory, Flow { prefixes, router, source, group }, &[])?;
            }
        }
    }
    Ok(())
}

/// A table that has a route of each tier, other than the first, for the group.
fn table_for(addresses: &Addresses, group: &[u8]) -> Vec<u8> {
    let (router, source) = (&addresses.routers[0], &addresses.sources[0][..]);
    let attribute = good_attributes().swap_remove(1);
    let shapes: [[&[u8]; 2]; 3] = [[source, &[]], [&[], group], [&[], &[]]];
    let nlris = shapes.map(|[source, group]| s_pmsi(&addresses.distinguishers[1], source, group, router));
    Table::holding(addresses.afi, 4, nlris.map(|nlri| (nlri, attribute.clone())).into()).image()
}

/// Each length: a prefix that holds the group, one whose last bit is another, and one with the next bit set or the last one.
fn lengths(harness: &mut Harness, addresses: &Addresses) -> Checked {
    let (router, source) = (&addresses.routers[0], &addresses.sources[0]);
    for group in [&addresses.groups[0], &addresses.groups[2]] {
        let (memory, bits) = (table_for(addresses, group), 8 * group.len());
        for length in 0..=bits {
            let [field] = prefix_of(length as u8, group);
            for bit in [length.saturating_sub(1), length.min(bits - 1), bits - 1] {
                let mut other = field.clone();
                other[1 + bit / 8] ^= 0x80 >> (bit % 8);
                for items in [vec![[field.clone()]], vec![[other.clone()]], vec![[field.clone()], [other]]] {
                    each(harness, &memory, Flow { prefixes: &list(&items), router, source, group }, &[])?;
                }
            }
        }
    }
    Ok(())
}

/// Every good or bad list; lists of one to nine prefixes of which one holds the group, at each place; and lists that are cut at every
/// octet, with the rest behind them.
fn lists(harness: &mut Harness, addresses: &Addresses) -> Checked {
    let (router, source) = (&addresses.routers[0], &addresses.sources[0]);
    for group in &addresses.groups[..4] {
        let memory = table_for(addresses, group);
        for prefixes in &lists_of_prefixes(addresses) {
            each(harness, &memory, Flow { prefixes, router, source, group }, &[])?;
        }
        let (held, other) = (prefix_of(9, group), prefix_of(3, &addresses.groups[4]));
        for (count, at) in (1..=MOST_PREFIXES + 1).flat_map(|count| (0..count).map(move |at| (count, at))) {
            let mut items = vec![other.clone(); count];
            items[at] = held.clone();
            each(harness, &memory, Flow { prefixes: &list(&items), router, source, group }, &[])?;
        }
        let whole = list(&[other.clone(), held.clone(), other]);
        for cut in 0..=whole.len() {
            let (prefixes, after) = whole.split_at(cut);
            each(harness, &memory, Flow { prefixes, router, source, group }, after)?;
        }
    }
    Ok(())
}

/// Tables, prefixes, flows and outputs, good and bad, all together: the order of refusals.
fn order(harness: &mut Harness, addresses: &Addresses) -> Checked {
    let Addresses { sources, groups, routers, .. } = addresses;
    let memory = table_for(addresses, &groups[2]);
    let mut unsound = memory.clone();
    unsound[7] += 1;
    let other_size: &[u8] = if addresses.afi == 1 { &[0xFF; 16] } else { &[0xEF; 4] };
    for prefixes in &lists_of_prefixes(addresses) {
        let good = Flow { prefixes, router: &routers[0], source: &sources[0], group: &groups[2] };
        let flows = [
            good,
            Flow { router: &routers[0][..3], ..good },
            Flow { source: &sources[0][1..], ..good },
            Flow { group: &groups[2][1..], ..good },
            Flow { group: other_size, ..good },
            Flow { group: &groups[4], ..good },
        ];
        for (memory, flow) in [&memory[..], &unsound, &[]].into_iter().flat_map(|it| flows.map(|flow| (it, flow))) {
            for (asks, room) in ASKS.into_iter().flat_map(|asks| [0, LEAST_OUTPUT].map(|room| (asks, room))) {
                harness.table_call(memory, asks(flow, &OUTPUT[..room]))?;
            }
        }
    }
    Ok(())
}

/// The same of shared trees, with lists of Source Active routes and of states that are good, LONG, SHORT, FLOW, or have an NLRI
/// that is refused.
fn order_of_shared(harness: &mut Harness, addresses: &Addresses) -> Checked {
    let Addresses { groups, routers, .. } = addresses;
    let memory = table_for(addresses, &groups[2]);
    let mut unsound = memory.clone();
    unsound[7] += 1;
    let unread = [routers[0].clone(), vec![9, 0]];
    let badly_sized = [vec![10, 0, 0], vec![]];
    let source_actives =
        [EMPTY.to_vec(), counting(257, from_ref(&unread)), counting(2, from_ref(&unread)), list(&[unread])];
    let states = [EMPTY.to_vec(), counting(257, from_ref(&badly_sized)), vec![], list(&[badly_sized])];
    for prefixes in &lists_of_prefixes(addresses) {
        for (source_actives, states) in source_actives.iter().flat_map(|it| states.iter().map(move |of| (it, of))) {
            for (router, group) in
                [(&routers[0][..], &groups[2]), (&routers[0], &groups[4]), (&routers[0][..3], &groups[2])]
            {
                let reception = Reception { prefixes, router, group, facts: UPSTREAM, source_actives, states };
                for (memory, room) in [(&memory, 0), (&memory, LEAST_OUTPUT), (&unsound, LEAST_OUTPUT)] {
                    let output = &OUTPUT[..room];
                    harness.table_call(memory, TableCall::MatchShared { reception, output })?;
                }
            }
        }
    }
    Ok(())
}

/// Every list of three calls, of these: installs of two routers' routes of the tiers that the class decides, and matches of one flow
/// and its shared tree that have different prefixes, bad ones among them; and matches of nobody.
fn short_lists(harness: &mut Harness, random: &mut Random, addresses: &Addresses, places: usize) -> Checked {
    let Addresses { distinguishers, sources, groups, routers, prefixes, .. } = addresses;
    let (source, group) = (&sources[0], &groups[2]);
    let shapes: [[&[u8]; 3]; 3] = [[source, &[], &routers[0]], [&[], group, &routers[0]], [&[], group, &routers[2]]];
    let nlris = shapes.map(|[source, group, router]| s_pmsi(&distinguishers[1], source, group, router));
    let good = good_attributes();
    let bad = list(&vec![prefix_of(8, group); MOST_PREFIXES + 1]);
    let mut calls: Vec<TableCall> = nlris.iter().map(|nlri| TableCall::Install { nlri, attribute: &good[1] }).collect();
    calls.push(TableCall::Withdraw { nlri: &nlris[0] });
    for prefixes in [EMPTY, &prefixes[2], &prefixes[3], &prefixes[4], &bad, &bad[..20]] {
        let flow = Flow { prefixes, router: &routers[0], source, group };
        calls.extend(ASKS.map(|asks| asks(flow, &OUTPUT)));
        calls.push(TableCall::MatchShared { reception: shared_tree(flow), output: &OUTPUT });
    }
    let flow = Flow { prefixes: &prefixes[2], router: &routers[2], source, group };
    calls.extend(ASKS.map(|asks| asks(flow, &OUTPUT)));
    let nobody = Flow { prefixes: &bad, router: &routers[0][..3], source, group };
    calls.extend([ASKS[0](nobody, &OUTPUT), ASKS[0](Flow { prefixes: EMPTY, ..nobody }, &OUTPUT)]);
    for (first, second) in calls.iter().flat_map(|first| calls.iter().map(move |second| (first, second))) {
        for third in &calls {
            let list = Sequence::of(addresses.afi, places, vec![*first, *second, *third]);
            list.run(harness, random, &[0, 1, 2], None)?;
        }
    }
    Ok(())
}

/// Any table, list of prefixes and flow, mostly good.
pub fn any(harness: &mut Harness, random: &mut Random, addresses: &Addresses) -> Checked {
    let count = random.below(12);
    let places = count + random.below(3);
    let memory = addresses.table(random, places, count).image();
    let prefixes = addresses.any_prefixes(random);
    let flow = Flow { prefixes: &prefixes, ..addresses.flow(random) };
    let room = if random.once_in(16) { random.below(LEAST_OUTPUT) } else { OUTPUT.len() };
    let output = &OUTPUT[..room];
    harness.table_call(&memory, random.pick(&ASKS)(flow, output))?;
    let reception = Reception { facts: any_facts(random), ..shared_tree(flow) };
    harness.table_call(&memory, TableCall::MatchShared { reception, output }).map(drop)
}
