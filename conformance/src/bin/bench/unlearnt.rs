//! Rows on many inputs in ever new orders, whose branches the processor has not learnt. The inputs of a row, up to a megabyte
//! and a half, stay in the cache, though not in its first level.

use crate::{
    report::Report,
    routes::{random_routes, Route},
    steps,
    table::{ask, table_of, INSTALLS, MATCHES, NEW, WITHDRAWALS},
    whole_run, RUN, STEPS, WALKS,
};
use conformance::{
    cases::inputs::samples::GOOD_AFIS,
    ffi::{Installed, Matched, Stepped, Walked},
    options::SEED,
    plain,
    random::Random,
    second::{matches::choice::LEAST_OUTPUT, runs::run::SKIP, table::memory::MOST_PLACES},
};
use std::{fmt::Debug, hint::black_box};

const RUNS: usize = 256;
/// Places of all tables of a row together: a dozen tables of the most places, or more smaller ones.
const PLACES: usize = 12 * MOST_PLACES;
/// Flows asked of each table.
const FLOWS: usize = 4;

pub fn rows(report: &mut Report) {
    if report.clock().is_none() {
        return;
    }
    let mut random = Random::new(SEED);
    for afi in GOOD_AFIS {
        runs(report, &mut random, afi);
    }
    for (places, afi) in [50, MOST_PLACES].into_iter().flat_map(|places| GOOD_AFIS.map(|afi| (places, afi))) {
        let tables = Tables::new(&mut random, afi, places);
        matches(report, &tables);
        withdrawals(report, &tables);
        installs(report, &tables);
    }
}

/// The NLRIs of one run in many orders.
fn runs(report: &mut Report, random: &mut Random, afi: u16) {
    let mut nlris = nlris_of(afi, &whole_run(random, afi));
    let count = nlris.len() as u32;
    let shuffled = |_| {
        random.shuffle(&mut nlris);
        nlris.concat()
    };
    let mut runs: Vec<Vec<u8>> = (0..RUNS).map(shuffled).collect();
    let inputs = format!("octets, afi {afi}, {RUNS} shuffled runs");
    let calls = black_box(STEPS).map(|call| move |run: &mut Vec<u8>| steps(call, afi, run));
    let end = Stepped { cursor: RUN, ..Default::default() };
    row(report, &format!("steps through {RUN} {inputs}"), &mut runs, |_| (), calls, &end);
    let calls =
        black_box(WALKS).map(|call| move |run: &mut Vec<u8>| unsafe { call(afi, SKIP, run.as_ptr(), run.len()) });
    let end = Walked { number: 0, count, offset: RUN as u32, skipped: 0 };
    row(report, &format!("walk of {RUN} {inputs}"), &mut runs, |_| (), calls, &end);
}

fn nlris_of(afi: u16, run: &[u8]) -> Vec<Vec<u8>> {
    let mut nlris = Vec::new();
    let mut cursor = 0;
    while cursor < run.len() {
        let next = unsafe { plain::step(afi, run.as_ptr(), run.len(), cursor) }.cursor;
        nlris.push(run[cursor..next].to_vec());
        cursor = next;
    }
    nlris
}

/// Tables with every place taken, and the routes of each in a random order.
struct Tables {
    afi: u16,
    places: usize,
    routes: Vec<Vec<Route>>,
}

impl Tables {
    fn new(random: &mut Random, afi: u16, places: usize) -> Self {
        let routes = (0..PLACES / places).map(|_| random_routes(random, afi, places)).collect();
        Tables { afi, places, routes }
    }

    fn name(&self, call: &str, held: usize) -> String {
        let Tables { afi, places, routes } = self;
        format!("{call}, afi {afi}, places {places}, held {held}, {} random tables", routes.len())
    }

    /// A call for each table, with its last route, which has any place among the others; the table holds all its routes,
    /// or all but that one.
    fn changes(&self, holds_last: bool) -> Vec<Change<'_>> {
        let mut changes = Vec::new();
        for routes in &self.routes {
            let last = self.places - 1;
            let before = self.table_of(&routes[..last + usize::from(holds_last)]);
            changes.push(Change { table: before.clone(), before, route: &routes[last] });
        }
        changes
    }

    fn table_of(&self, routes: &[Route]) -> Vec<u8> {
        table_of(self.afi, self.places, routes)
    }
}

/// A table that a call changes, the octets that it has before, and the route that the call is about.
#[derive(Clone, PartialEq)]
struct Change<'a> {
    table: Vec<u8>,
    before: Vec<u8>,
    route: &'a Route,
}

impl Change<'_> {
    fn restore(&mut self) {
        self.table.copy_from_slice(&self.before);
    }
}

/// A flow that takes a route of the table, and where the route is written.
#[derive(Clone, PartialEq)]
struct Asked<'a> {
    table: &'a [u8],
    flow: &'a [Vec<u8>; 3],
    output: [u8; LEAST_OUTPUT],
}

fn matches(report: &mut Report, tables: &Tables) {
    let full: Vec<Vec<u8>> = tables.routes.iter().map(|routes| tables.table_of(routes)).collect();
    let mut asked = Vec::new();
    for (table, routes) in full.iter().zip(&tables.routes) {
        let flows = routes[..FLOWS].iter().map(|route| &route.flow);
        asked.extend(flows.map(|flow| Asked { table, flow, output: [0; LEAST_OUTPUT] }));
    }
    let calls = black_box(MATCHES).map(|call| {
        move |Asked { table, flow, output }: &mut Asked| {
            let Matched { number, tier, .. } = unsafe { ask(call, table, flow, output.as_mut_ptr()) };
            (number, tier > 0)
        }
    });
    row(report, &tables.name("match found", tables.places), &mut asked, |_| (), calls, &(0, true));
}

fn withdrawals(report: &mut Report, tables: &Tables) {
    let calls = black_box(WITHDRAWALS).map(|call| {
        move |Change { table, route: Route { nlri, .. }, .. }: &mut Change| unsafe {
            call(table.as_mut_ptr(), table.len(), nlri.as_ptr(), nlri.len())
        }
    });
    row(report, &tables.name("withdraw", tables.places), &mut tables.changes(true), Change::restore, calls, &0);
}

fn installs(report: &mut Report, tables: &Tables) {
    let calls = black_box(INSTALLS).map(|call| {
        move |Change { table, route: Route { nlri, attribute, .. }, .. }: &mut Change| unsafe {
            let (attribute, attribute_size) = (attribute.as_ptr(), attribute.len());
            call(table.as_mut_ptr(), table.len(), nlri.as_ptr(), nlri.len(), attribute, attribute_size)
        }
    });
    let new = Installed { number: 0, outcome: NEW };
    row(
        report,
        &tables.name("install new", tables.places - 1),
        &mut tables.changes(false),
        Change::restore,
        calls,
        &new,
    );
}

/// A row of calls that must give this answer on each input, and both leave the same input.
fn row<Input: Clone + PartialEq, Answer: PartialEq + Debug>(
    report: &mut Report,
    name: &str,
    inputs: &mut [Input],
    restore: impl Fn(&mut Input),
    calls: [impl Fn(&mut Input) -> Answer; 2],
    expected: &Answer,
) {
    let Some(clock) = report.clock() else { return };
    let [archive, plain] = calls.each_ref().map(|call| {
        let result = |input: &mut Input| {
            restore(input);
            (call(input), input.clone())
        };
        inputs.iter_mut().map(result).collect::<Vec<_>>()
    });
    let unexpected = [&archive, &plain].map(|results| results.iter().position(|(answer, _)| answer != expected));
    report.check(&format!("{name}: the first input with another answer"), &unexpected, &None);
    let unlike = archive.iter().zip(&plain).position(|((_, left), (_, right))| left != right);
    report.check(&format!("{name}: the first input that is left otherwise"), &[unlike, None], &None);
    report.time(name, clock.unlearnt(inputs, restore, &calls), None);
}
