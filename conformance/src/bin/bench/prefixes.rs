//! Rows of the class of a group and of matches by no prefix, by one and by the most, of which the last alone holds the group: on a table
//! of one place, and on tables of the most places that hold a few or all routes.

use crate::{
    report::Report,
    routes::{middle, routes, Route},
    table::{ask_by, counted_or_timed, table_of, COUNTED, FEW, MATCHES},
};
use conformance::{
    cases::inputs::{
        lists::{list, prefix_of, Prefix},
        samples::GOOD_AFIS,
    },
    ffi::{raw, Group},
    plain,
    second::{groups::prefixes::MOST_PREFIXES, matches::choice::LEAST_OUTPUT, table::memory::MOST_PLACES},
};
use std::hint::black_box;

const GIVEN: [usize; 3] = [0, 1, MOST_PREFIXES];

const CLASSES: [raw::GroupClass; 2] = [raw::mvpn_group_class, plain::group_class];

/// Lengths of the prefixes, which end within an octet.
const LENGTHS: [u8; 2] = [12, 28];

const SSM: u32 = 2;

pub fn rows(report: &mut Report) {
    for (afi, given) in GOOD_AFIS.into_iter().flat_map(|afi| GIVEN.map(|given| (afi, given))) {
        let group = &routes(afi, 1)[0].flow[2][..];
        let prefixes = &prefixes(group, given)[..];
        let calls = black_box(CLASSES).map(|call| {
            move || unsafe { call(afi, prefixes.as_ptr(), prefixes.len(), group.as_ptr(), black_box(group.len())) }
        });
        let name = format!("group_class, afi {afi}, prefixes {given}");
        report.check(&name, &calls.map(|call| call()), &Group { number: 0, group_class: SSM });
        report.count(&name, calls);
    }
    for (places, held) in [(COUNTED, 1), (MOST_PLACES, FEW), (MOST_PLACES, MOST_PLACES)] {
        for (afi, given) in GOOD_AFIS.into_iter().flat_map(|afi| GIVEN.map(|given| (afi, given))) {
            let all = routes(afi, held);
            let name = format!("match, afi {afi}, places {places}, held {held}, prefixes {given}");
            matching(report, &name, &table_of(afi, places, &all), middle(&all), given);
        }
    }
}

/// So many prefixes, of which the last alone holds the group.
fn prefixes(group: &[u8], given: usize) -> Vec<u8> {
    let numbered = |at: usize| {
        let mut address = group.to_vec();
        address[0] ^= (given - 1 - at) as u8;
        prefix_of(LENGTHS[at % LENGTHS.len()], &address)
    };
    let items: Vec<Prefix> = (0..given).map(numbered).collect();
    list(&items)
}

/// A row of matches of a flow that takes this route, whatever its class.
fn matching(report: &mut Report, name: &str, table: &[u8], route: &Route, given: usize) {
    let flow = &route.flow;
    let prefixes = &prefixes(&flow[2], given)[..];
    let mut buffer = [0u8; LEAST_OUTPUT];
    let output = buffer.as_mut_ptr();
    let calls = black_box(MATCHES).map(|call| move || unsafe { ask_by(call, table, prefixes, flow, output) });
    report.check(name, &calls.map(|call| call()), &route.matched());
    report.check_output(&calls, output, LEAST_OUTPUT, &route.octets(), name);
    counted_or_timed(report, name, table, calls);
}
