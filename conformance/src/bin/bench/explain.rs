//! Rows of explanations, on the tables that matches are measured on: of one place, and of the most places that hold no, a few
//! or all routes. On the larger ones also as a ratio to the archive's match.

use crate::{
    report::Report,
    routes::{middle, routes, Route},
    table::{ask, counted_or_timed, table_of, COUNTED, MATCHES, TABLES},
};
use conformance::{
    cases::inputs::samples::GOOD_AFIS,
    ffi::{raw, Explained, Matched},
    plain,
    second::{matches::choice::LEAST_OUTPUT, table::memory::size},
};
use std::hint::black_box;

const EXPLANATIONS: [raw::Explain; 2] = [raw::mvpn_explain, plain::explain];

/// The reasons of a flow that takes a (C-S,C-G) route, and of an SSM flow that takes none.
const FOUND: [u32; 4] = [1, 4, 4, 4];
const NONE: [u32; 4] = [2, 2, 3, 2];

pub fn rows(report: &mut Report) {
    for (places, held) in TABLES {
        for afi in GOOD_AFIS {
            let all = routes(afi, held.max(1));
            let table = table_of(afi, places, &all[..held]);
            let name = format!("afi {afi}, places {places}, held {held}");
            let route = middle(&all);
            if held > 0 {
                row(report, &format!("explain found, {name}"), &table, &route.flow, Some(route));
            }
            let [_, source, group] = route.flow.clone();
            row(report, &format!("explain none, {name}"), &table, &[vec![10, 9, 9, 9], source, group], None);
        }
    }
}

/// A row of explanations: they must give this route, or tier 0.
fn row(report: &mut Report, name: &str, table: &[u8], flow: &[Vec<u8>; 3], route: Option<&Route>) {
    let (expected, written) = match route {
        None => (Explained { matched: Matched::default(), reasons: NONE }, Vec::new()),
        Some(route) => (Explained { matched: route.matched(), reasons: FOUND }, route.octets()),
    };
    let mut buffer = [0u8; LEAST_OUTPUT];
    let output = buffer.as_mut_ptr();
    let calls = black_box(EXPLANATIONS).map(|call| move || unsafe { ask(call, table, flow, output) });
    report.check(name, &calls.map(|call| call()), &expected);
    report.check_output(&calls, output, LEAST_OUTPUT, &written, name);
    counted_or_timed(report, name, table, calls);
    if table.len() <= size(COUNTED) {
        return;
    }
    let ([archive, _], [match_flow, _]) = (calls, black_box(MATCHES));
    report.beside(&format!("{name}, to match"), archive, || unsafe { ask(match_flow, table, flow, output) });
}
