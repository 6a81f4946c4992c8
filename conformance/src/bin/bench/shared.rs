//! Rows of the match for shared trees, on tables of the most places that hold no or all routes: with a fact and no listed
//! items, and without a fact and with the most items in both lists.

use crate::{
    report::Report,
    routes::{routes, Route},
    table::table_of,
};
use conformance::{
    cases::inputs::{
        lists::{list, Item},
        routes::source_active,
        samples::GOOD_AFIS,
    },
    ffi::{raw, Matched, SharedTree},
    plain,
    second::{
        groups::prefixes::NO_PREFIXES,
        matches::{
            choice::LEAST_OUTPUT,
            shared::{Reception, MOST_ITEMS},
        },
        table::memory::MOST_PLACES,
    },
};
use std::hint::black_box;

/// The route that is found: a (C-*,C-G) one.
const TIER: u32 = 3;

pub fn rows(report: &mut Report) {
    for afi in GOOD_AFIS {
        for (held, items) in [(0, 0), (0, MOST_ITEMS), (MOST_PLACES, 0), (MOST_PLACES, MOST_ITEMS)] {
            row(report, afi, held, items);
        }
    }
}

/// A row of matches for the shared tree of a route that stands about in the middle of a full table.
fn row(report: &mut Report, afi: u16, held: usize, items: usize) {
    let name = format!("match_shared, afi {afi}, held {held}, items {items}");
    let all = routes(afi, MOST_PLACES);
    let shared: Vec<&Route> = all.iter().filter(|route| route.tier == TIER).collect();
    let route = shared[shared.len() / 2];
    let flow = &route.flow;
    let table = table_of(afi, MOST_PLACES, &all[..held]);
    let [source_actives, states] = &lists(flow, items);
    let facts = SharedTree { upstream: u32::from(items == 0), ..Default::default() };
    let (prefixes, router, group) = (NO_PREFIXES, &flow[0], &flow[2]);
    let reception = Reception { prefixes, router, group, facts, source_actives, states };
    let mut buffer = [0u8; LEAST_OUTPUT];
    let output = buffer.as_mut_ptr();
    let calls = black_box([raw::mvpn_match_shared as raw::MatchShared, plain::match_shared]);
    let calls = calls.map(|call| matching(call, &table, reception, output));
    let written = if held == 0 { Vec::new() } else { route.octets() };
    report.check_output(&calls, output, LEAST_OUTPUT, &written, &name);
    report.timed(&name, calls);
}

/// The call with these arguments.
fn matching<'a>(
    call: raw::MatchShared,
    table: &'a [u8],
    reception: Reception<'a>,
    output: *mut u8,
) -> impl Fn() -> Matched + 'a {
    let Reception { prefixes, router, group, facts, source_actives, states } = reception;
    let ([table, prefixes], lists) = ([table, prefixes].map(raw::octets), [source_actives, states].map(raw::octets));
    move || unsafe {
        let tree = [raw::octets(router), (group.as_ptr(), black_box(group.len()))];
        raw::on_tree(call, table, prefixes, tree, facts, lists, (output, LEAST_OUTPUT))
    }
}

/// So many Source Active routes of the flow's router for its group, and so many states: every route but the last has one.
fn lists([router, source, group]: &[Vec<u8>; 3], items: usize) -> [Vec<u8>; 2] {
    let numbered = |number: usize| [&source[..source.len() - 2], &(number as u16).to_be_bytes()].concat();
    let active = |number| [router.clone(), source_active(&[0, 0, 0, 100, 0, 0, 0, 7], &numbered(number), group)];
    let state = |number| [numbered(number), group.clone()];
    let source_actives: Vec<Item> = (0..items).rev().map(active).collect();
    let states: Vec<Item> = (1..=items).map(state).collect();
    [list(&source_actives), list(&states)]
}
