//! Lines on what a planner does with matches (docs/PLANNING.md), each of the archive's match beside another of its matches: in a full table
//! beside a table of one place, by which one tells who asks again after a change; and of many routes in a table for each originator beside
//! small tables by a hash of originator, source and group.

use crate::{
    report::Report,
    routes::{of_many, routes, Route},
    table::{ask, table_of, COUNTED},
};
use conformance::{
    cases::inputs::samples::GOOD_AFIS,
    ffi::{raw, Matched},
    second::{
        matches::choice::LEAST_OUTPUT,
        table::{memory::MOST_PLACES, splitting::hash},
    },
};
use std::hint::black_box;

/// Originators, each with as many (C-S,C-G) routes as a table holds.
const ORIGINATORS: usize = 20;

/// Small tables.
const SMALL: usize = 4_096;

/// Flows that are asked, one after the other, in the time that is told.
const FLOWS: usize = 1_000;

pub fn rows(report: &mut Report) {
    if report.clock().is_none() {
        return;
    }
    for afi in GOOD_AFIS {
        alone(report, afi);
        several(report, afi);
    }
}

/// A flow that takes a route of a full table, in a table of one place that holds this route alone, or another that does not take it.
fn alone(report: &mut Report, afi: u16) {
    let all = routes(afi, MOST_PLACES);
    let of_tier_1 = |at: &usize| all[*at].tier == 1;
    let middle = (all.len() / 2..all.len()).find(of_tier_1).expect("a route of tier 1");
    let other = (0..all.len() / 2).find(of_tier_1).expect("a route of tier 1");
    let full = table_of(afi, MOST_PLACES, &all);
    let flow = &all[middle].flow;
    for (name, route, tier) in [("taken", middle, 1), ("not taken", other, 0)] {
        let one = table_of(afi, COUNTED, [&all[route]]);
        let mut buffer = [0u8; LEAST_OUTPUT];
        let output = buffer.as_mut_ptr();
        let asks = |table| move || unsafe { ask(black_box(raw::mvpn_match), black_box(table), flow, output) };
        let name = format!("match, afi {afi}, places {MOST_PLACES}, held {MOST_PLACES}, to one place, {name}");
        report.check(&name, &[(asks(&full)().tier, asks(&one)().tier); 2], &(1, tier));
        report.beside(&name, asks(&full), asks(&one));
    }
}

/// Far more routes than a table holds.
fn several(report: &mut Report, afi: u16) {
    let all = of_many(afi, ORIGINATORS, MOST_PLACES);
    let originators: Vec<Vec<u8>> = all.iter().map(|routes| table_of(afi, MOST_PLACES, routes)).collect();
    let small = small_tables(afi, &all);
    let flows: Vec<(usize, &Route)> = (0..FLOWS).map(|at| (at % ORIGINATORS, &all[at % ORIGINATORS][at / 2])).collect();
    let mut buffer = [0u8; LEAST_OUTPUT];
    let output = buffer.as_mut_ptr();
    let matched = |table: &[u8], route: &Route| unsafe { ask(black_box(raw::mvpn_match), table, &route.flow, output) };
    let by_originator = |(originator, route): (usize, &Route)| matched(&originators[originator], route);
    let by_hash = |(_, route): (usize, &Route)| matched(&small[small_of(route)], route);
    let routes = ORIGINATORS * MOST_PLACES;
    let name = format!("{FLOWS} matches, afi {afi}, {routes} routes by originator, to small tables");
    let agree = |flow: &(usize, &Route)| by_originator(*flow) == by_hash(*flow) && by_hash(*flow).tier == 1;
    report.check(&name, &[flows.iter().filter(|flow| agree(flow)).count(); 2], &FLOWS);
    let all_of = |ask: &dyn Fn((usize, &Route)) -> Matched| flows.iter().map(|flow| ask(*flow).tier).sum::<u32>();
    report.beside(&name, || all_of(&by_originator), || all_of(&by_hash));
}

/// Of each small table its octets; it has no more places than it needs.
fn small_tables(afi: u16, all: &[Vec<Route>]) -> Vec<Vec<u8>> {
    let mut held: Vec<Vec<&Route>> = vec![Vec::new(); SMALL];
    for route in all.iter().flatten() {
        held[small_of(route)].push(route);
    }
    held.into_iter().map(|routes| table_of(afi, routes.len(), routes)).collect()
}

fn small_of(route: &Route) -> usize {
    hash(&route.flow.each_ref().map(|octets| &octets[..]), SMALL)
}
