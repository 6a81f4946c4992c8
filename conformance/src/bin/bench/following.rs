//! Rows of looking into a table, on the tables that matches are measured on: the route that comes next after one in the middle,
//! or after none, and what the table holds.

use crate::{
    report::Report,
    routes::{routes, Route},
    table::{counted_or_timed, table_of, TABLES},
};
use conformance::{
    cases::inputs::samples::GOOD_AFIS,
    ffi::{raw, Following, TableInfo},
    plain,
    second::matches::choice::LEAST_OUTPUT,
};
use std::{fmt::Debug, hint::black_box};

pub fn rows(report: &mut Report) {
    for (places, held) in TABLES {
        for afi in GOOD_AFIS {
            let all = routes(afi, held);
            let table = table_of(afi, places, &all);
            let name = format!("afi {afi}, places {places}, held {held}");
            let middle = held / 2;
            let before = middle.checked_sub(1).map_or(&[][..], |at| &all[at].nlri);
            if let Some(route) = all.get(middle) {
                next(report, &format!("next route, {name}"), &table, before, Some(route));
            }
            let last = all.last().map_or(&[][..], |route| &route.nlri);
            next(report, &format!("next none, {name}"), &table, last, None);
            let calls = black_box([raw::mvpn_table_info as raw::ReadTableInfo, plain::table_info]);
            let calls = calls.map(|call| {
                let table = &table[..];
                move || unsafe { call(table.as_ptr(), black_box(table.len())) }
            });
            let [places, routes] = [places, held].map(|count| count as u32);
            let expected = TableInfo { number: 0, afi: afi.into(), places, routes };
            row(report, &format!("table_info, {name}"), &table, calls, &expected);
        }
    }
}

/// A row of calls that must give this route, or none.
fn next(report: &mut Report, name: &str, table: &[u8], nlri: &[u8], route: Option<&Route>) {
    let written = route.map_or_else(Vec::new, Route::octets);
    let [nlri_size, attribute_size] = route.map_or([0; 2], Route::sizes);
    let mut buffer = [0u8; LEAST_OUTPUT];
    let output = buffer.as_mut_ptr();
    let calls = black_box([raw::mvpn_next as raw::Next, plain::next]).map(|call| {
        move || unsafe { call(table.as_ptr(), table.len(), nlri.as_ptr(), black_box(nlri.len()), output, LEAST_OUTPUT) }
    });
    report.check_output(&calls, output, LEAST_OUTPUT, &written, name);
    row(report, name, table, calls, &Following { number: 0, nlri_size, attribute_size, stale: 0 });
}

fn row<Answer: PartialEq + Debug>(
    report: &mut Report,
    name: &str,
    table: &[u8],
    calls: [impl Fn() -> Answer; 2],
    expected: &Answer,
) {
    report.check(name, &calls.each_ref().map(|call| call()), expected);
    counted_or_timed(report, name, table, calls);
}
