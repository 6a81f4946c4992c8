//! Rows of plans: a judge of a route for each of the most flows, and planners of the most flows, which want one attribute, 32 or as many as
//! there are flows. What a planner proposes is its own choice, so that it is judged, and not compared.

use crate::report::Report;
use conformance::{
    cases::{
        inputs::{lists::list, routes::Addresses, samples::GOOD_AFIS},
        plan::plans::{many_flows, wanted_attributes, Case},
    },
    ffi::{raw, Judged},
    plain,
    second::{
        plan::wish::{Wish, LONGEST_PROPOSAL, MOST_FLOWS},
        table::memory::PLACE,
        Second,
    },
};
use std::hint::black_box;

pub fn rows(report: &mut Report) {
    for afi in GOOD_AFIS {
        judge(report, afi);
        for attributes in [1, 32, MOST_FLOWS] {
            plan(report, afi, attributes);
        }
    }
}

/// The most flows, which want so many attributes in turn.
fn wishing(afi: u16, attributes: usize) -> Case {
    let addresses = Addresses::of_family(afi);
    let tunnels = wanted_attributes();
    let wants = |(at, [source, group]): (usize, [Vec<u8>; 2])| {
        let mut attribute = tunnels[at % attributes % tunnels.len()].clone();
        attribute[0] = (at % attributes) as u8;
        [source, group, attribute]
    };
    Case::of(&addresses, many_flows(&addresses, MOST_FLOWS).into_iter().enumerate().map(wants).collect())
}

/// As many routes as flows, of which each is taken by one.
fn judge(report: &mut Report, afi: u16) {
    let case = wishing(afi, MOST_FLOWS);
    let flows = list(&case.flows);
    let places: Vec<u8> =
        case.flows.iter().flat_map(|[source, group, wanted]| case.place(source, group, wanted, 0)).collect();
    let name = format!("judge, afi {afi}, {MOST_FLOWS} flows, {} places", places.len() / PLACE);
    let (wish, places) = (case.wish(&flows), &places[..]);
    let calls = black_box([raw::mvpn_judge as raw::Judge, plain::judge])
        .map(|call| move || unsafe { raw::on_wish(call, afi, lent(&wish), raw::octets(places)) });
    report.check(&name, &calls.each_ref().map(|call| call()), &Judged { number: 0, accepted: 1 });
    report.timed(&name, calls);
}

/// The arguments of both calls but the AFI and the places.
#[inline(always)]
fn lent(wish: &Wish) -> [raw::Octets; 4] {
    let flows = (wish.flows.as_ptr(), black_box(wish.flows.len()));
    [raw::octets(wish.prefixes), raw::octets(wish.originator), raw::octets(wish.distinguisher), flows]
}

fn plan(report: &mut Report, afi: u16, attributes: usize) {
    let case = wishing(afi, attributes);
    let flows = list(&case.flows);
    let name = format!("plan, afi {afi}, {MOST_FLOWS} flows, attributes {attributes}");
    let wish = case.wish(&flows);
    let mut buffer = vec![0u8; LONGEST_PROPOSAL];
    let output = buffer.as_mut_ptr();
    let calls = black_box([raw::mvpn_plan as raw::Plan, plain::plan])
        .map(|call| move || unsafe { raw::on_wish(call, afi, lent(&wish), (output, LONGEST_PROPOSAL)) });
    let wrong = calls.each_ref().map(|call| unsafe {
        output.write_bytes(0x5A, LONGEST_PROPOSAL);
        let answer = call();
        let after = std::slice::from_raw_parts(output, LONGEST_PROPOSAL);
        Second::sound().wrong_plan(&wish, &[0x5A; LONGEST_PROPOSAL], answer, after)
    });
    report.check(&name, &wrong, &None);
    if let Some(clock) = report.clock() {
        report.time(&name, clock.best(&calls), None);
    }
}
