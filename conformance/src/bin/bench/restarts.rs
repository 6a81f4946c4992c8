//! Rows of mark and sweep, on tables whose every place is taken and of which the router that restarts has none, half or all of the
//! routes: a mark of routes that are not marked, a mark and a sweep of routes that are; and on an empty table.

use crate::{
    report::Report,
    routes::{routes, Route},
    table::table_of,
};
use conformance::{
    cases::inputs::samples::GOOD_AFIS,
    ffi::{raw, Restarted},
    plain,
    second::table::memory::{size, MOST_PLACES, PLACE},
};
use std::hint::black_box;

const MARKS: [raw::Restart; 2] = [raw::mvpn_mark, plain::mark];
const SWEEPS: [raw::Restart; 2] = [raw::mvpn_sweep, plain::sweep];

/// The last octets of the originators: of the router that restarts, and of another.
const RESTARTING: u8 = 201;
const OTHER: u8 = 202;

pub fn rows(report: &mut Report) {
    for afi in GOOD_AFIS {
        let router = of_router(routes(afi, 1), |_| true).swap_remove(0).flow[0].clone();
        let none = table_of(afi, MOST_PLACES, []);
        for (call, calls) in [("mark", MARKS), ("sweep", SWEEPS)] {
            row(report, &format!("{call}, afi {afi}, places {MOST_PLACES}, held 0"), calls, &router, [&none, &none], 0);
        }
        for (own, chosen) in [("none", (|_| false) as fn(usize) -> bool), ("half", |at| at % 2 == 0), ("all", |_| true)]
        {
            let all = of_router(routes(afi, MOST_PLACES), chosen);
            let is_own = |route: &&Route| route.flow[0] == router;
            let unmarked = table_of(afi, MOST_PLACES, &all);
            let left = table_of(afi, MOST_PLACES, all.iter().filter(|route| !is_own(route)));
            let mut marked = unmarked.clone();
            let mut gone = 0;
            for (at, _) in all.iter().enumerate().filter(|(_, route)| is_own(route)) {
                marked[size(at) + PLACE - 1] = 1;
                gone += 1;
            }
            let name = format!("afi {afi}, places {MOST_PLACES}, {own} of the router's");
            row(report, &format!("mark, {name}"), MARKS, &router, [&unmarked, &marked], 0);
            row(report, &format!("mark again, {name}"), MARKS, &router, [&marked, &left], gone);
            row(report, &format!("sweep, {name}"), SWEEPS, &router, [&marked, &left], gone);
        }
    }
}

/// These routes, in the order of their NLRIs, each either of the router that restarts or of the other one.
fn of_router(mut routes: Vec<Route>, chosen: impl Fn(usize) -> bool) -> Vec<Route> {
    for (at, route) in routes.iter_mut().enumerate() {
        let last = if chosen(at) { RESTARTING } else { OTHER };
        for octets in [&mut route.nlri, &mut route.flow[0]] {
            *octets.last_mut().expect("an originator has octets") = last;
        }
    }
    routes.sort_by(|left, right| left.nlri.cmp(&right.nlri));
    routes
}

/// A row of calls that change the table from `before` to `after`.
fn row(report: &mut Report, name: &str, calls: [raw::Restart; 2], router: &[u8], tables: [&[u8]; 2], gone: u32) {
    let [before, after] = tables;
    let calls = black_box(calls).map(|call| {
        move |table: *mut u8| unsafe { call(table, before.len(), router.as_ptr(), black_box(router.len())) }
    });
    report.check_changing(name, &calls, tables, Restarted { number: 0, gone });
    if let Some(clock) = report.clock() {
        report.time(name, clock.best_changing(before, after, &calls), None);
    }
}
