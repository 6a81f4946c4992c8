//! Rows of the table's calls, by places and by routes held; of both families where routes are held.

use crate::{
    measure::Clock,
    report::{line, Memory, Report},
    routes::{middle, routes, Route},
};
use conformance::{
    cases::inputs::samples::GOOD_AFIS,
    ffi::{raw, Installed, Matched},
    plain,
    second::{
        groups::prefixes::NO_PREFIXES,
        matches::choice::LEAST_OUTPUT,
        table::memory::{size, MOST_PLACES},
    },
};
use std::{
    ffi::{c_int, c_void},
    fmt::Debug,
    hint::black_box,
};

const PLACES: [usize; 5] = [0, 1, 50, 250, MOST_PLACES];
/// Routes that a sparse table holds.
pub const FEW: usize = 5;

/// Octets that reading the memory looks at together.
const BLOCK: usize = 64;

/// Places and routes held of the tables on which calls that change none of them are measured.
pub const TABLES: [(usize, usize); 5] =
    [(COUNTED, 0), (COUNTED, 1), (MOST_PLACES, 0), (MOST_PLACES, FEW), (MOST_PLACES, MOST_PLACES)];

/// The most places of the tables whose rows are counted.
pub const COUNTED: usize = 1;

/// Outcomes of install.
pub const NEW: u32 = 1;
const REPLACED: u32 = 2;

extern "C" {
    fn memcmp(left: *const c_void, right: *const c_void, size: usize) -> c_int;
}

pub fn rows(report: &mut Report) {
    for places in PLACES {
        let memory = match report.clock() {
            _ if places <= COUNTED => None,
            Some(clock) => Some(memory_of(clock, places)),
            None => continue,
        };
        let has_goal = places == MOST_PLACES;
        let goal = memory.map(|memory| Memory { has_goal, ..memory });
        empty(&mut Rows { report, memory: goal, afi: 1, places, held: 0 });
        let fills = match places {
            0 => &[][..],
            1 => &[1],
            _ => &[FEW, places],
        };
        for (held, afi) in fills.iter().flat_map(|held| GOOD_AFIS.map(|afi| (*held, afi))) {
            filled(&mut Rows { report, memory, afi, places, held });
        }
    }
}

/// Prints what it costs to compare two equal buffers of the table's size, and to read one of them.
fn memory_of(clock: Clock, places: usize) -> Memory {
    let octets = size(places);
    let [left, right] = [vec![0u8; octets], vec![0u8; octets]];
    let [memcmp] = clock.best(&[|| unsafe {
        let [left, right] = black_box([&left, &right]).map(|buffer| buffer.as_ptr().cast());
        memcmp(left, right, black_box(octets))
    }]);
    let [reading] = clock.best(&[|| reading(black_box(&left))]);
    for (name, nanoseconds) in [("memcmp of two buffers of", memcmp), ("reading once of", reading)] {
        let cells = ["-".into(), format!("{nanoseconds:.2}"), "-".into(), "-".into(), "-".into()];
        line(&format!("{name} {octets} octets"), "ns", cells, "");
    }
    Memory { memcmp, reading, has_goal: false }
}

/// Looks at every octet once, in blocks, so that the compiler can take many together.
fn reading(octets: &[u8]) -> [u8; BLOCK] {
    let (blocks, rest) = octets.as_chunks::<BLOCK>();
    let mut seen = [0; BLOCK];
    seen.iter_mut().zip(rest).for_each(|(seen, octet)| *seen |= octet);
    for block in blocks {
        seen.iter_mut().zip(block).for_each(|(seen, octet)| *seen |= octet);
    }
    seen
}

/// What the rows of one kind of table share. Counted rows are held against no memory.
struct Rows<'a> {
    report: &'a mut Report,
    memory: Option<Memory>,
    afi: u16,
    places: usize,
    held: usize,
}

fn empty(rows: &mut Rows) {
    let (afi, places) = (rows.afi, rows.places);
    let made = table_of(afi, places, []);
    let [route] = &routes(afi, 1)[..] else { unreachable!("one route was asked for") };
    let calls = black_box([raw::mvpn_make as raw::Make, plain::make]);
    let make = calls.map(|call| move |table| unsafe { call(afi, table, size(places)) });
    rows.changing("make", &vec![0xA5; made.len()], &made, 0, make);
    rows.matching("match none", &made, &route.flow, None);
    if places > 0 {
        rows.install("install new", &made, &table_of(afi, places, [route]), route, NEW);
    }
}

/// The route that is matched, installed and withdrawn stands about in the middle.
fn filled(rows: &mut Rows) {
    let all = routes(rows.afi, rows.held);
    let route = middle(&all);
    let before = table_of(rows.afi, rows.places, all.iter().filter(|other| other.nlri != route.nlri));
    let table = table_of(rows.afi, rows.places, &all);
    rows.matching("match found", &table, &route.flow, Some(route));
    let [_, source, group] = route.flow.clone();
    rows.matching("match none", &table, &[vec![10, 9, 9, 9], source, group], None);
    rows.install("install replaced", &table, &table, route, REPLACED);
    rows.withdraw("withdraw", &table, &before, route);
    if rows.held > 1 {
        rows.held -= 1;
        rows.install("install new", &before, &table, route, NEW);
    }
}

/// A table that holds these routes.
pub fn table_of<'a>(afi: u16, places: usize, routes: impl IntoIterator<Item = &'a Route>) -> Vec<u8> {
    let mut table = vec![0; size(places)];
    let (octets, size) = (table.as_mut_ptr(), table.len());
    assert_eq!(unsafe { plain::make(afi, octets, size) }, 0);
    for Route { nlri, attribute, .. } in routes {
        let (nlri, nlri_size) = (nlri.as_ptr(), nlri.len());
        let answer = unsafe { plain::install(octets, size, nlri, nlri_size, attribute.as_ptr(), attribute.len()) };
        assert_eq!(answer, Installed { number: 0, outcome: NEW });
    }
    table
}

/// A row of calls on a table: in instructions where it has few places.
pub fn counted_or_timed<Answer: PartialEq + Debug>(
    report: &mut Report,
    name: &str,
    table: &[u8],
    calls: [impl Fn() -> Answer; 2],
) {
    match table.len() <= size(COUNTED) {
        true => report.count(name, calls),
        false => report.timed(name, calls),
    }
}

pub const INSTALLS: [raw::Install; 2] = [raw::mvpn_install, plain::install];
pub const WITHDRAWALS: [raw::Withdraw; 2] = [raw::mvpn_withdraw, plain::withdraw];
pub const MATCHES: [raw::Match; 2] = [raw::mvpn_match, plain::match_flow];

/// A match or an explanation with the least output, and no prefixes.
///
/// # Safety
/// The output has `LEAST_OUTPUT` octets and overlaps nothing.
#[inline(always)]
pub unsafe fn ask<Answer>(call: raw::OnFlow<Answer>, table: &[u8], flow: &[Vec<u8>; 3], output: *mut u8) -> Answer {
    ask_by(call, table, NO_PREFIXES, flow, output)
}

/// The same by these prefixes.
///
/// # Safety
/// As above.
#[inline(always)]
pub unsafe fn ask_by<Answer>(
    call: raw::OnFlow<Answer>,
    table: &[u8],
    prefixes: &[u8],
    flow: &[Vec<u8>; 3],
    output: *mut u8,
) -> Answer {
    let flow = flow.each_ref().map(|octets| raw::octets(octets));
    raw::on_flow(call, raw::octets(table), raw::octets(prefixes), flow, (output, LEAST_OUTPUT))
}

impl Rows<'_> {
    fn name(&self, call: &str) -> String {
        format!("{call}, afi {}, places {}, held {}", self.afi, self.places, self.held)
    }

    fn install(&mut self, call: &str, before: &[u8], after: &[u8], route: &Route, outcome: u32) {
        let Route { nlri, attribute, .. } = route;
        let (size, nlri, attribute) = (before.len(), &nlri[..], &attribute[..]);
        let calls = black_box(INSTALLS).map(|call| {
            move |table| unsafe { call(table, size, nlri.as_ptr(), nlri.len(), attribute.as_ptr(), attribute.len()) }
        });
        self.changing(call, before, after, Installed { number: 0, outcome }, calls);
    }

    fn withdraw(&mut self, call: &str, before: &[u8], after: &[u8], route: &Route) {
        let (size, nlri) = (before.len(), &route.nlri[..]);
        let calls =
            black_box(WITHDRAWALS).map(|call| move |table| unsafe { call(table, size, nlri.as_ptr(), nlri.len()) });
        self.changing(call, before, after, 0, calls);
    }

    /// A row of calls that write the table: they must give this answer and leave these octets.
    fn changing<Answer: PartialEq + Debug>(
        &mut self,
        call: &str,
        before: &[u8],
        after: &[u8],
        expected: Answer,
        calls: [impl Fn(*mut u8) -> Answer; 2],
    ) {
        let name = self.name(call);
        self.report.check_changing(&name, &calls, [before, after], expected);
        if self.places <= COUNTED {
            let calls = calls.each_ref().map(|call| {
                let mut table = before.to_vec();
                move || call(table.as_mut_ptr())
            });
            self.report.count(&name, calls);
        } else if let Some(clock) = self.report.clock() {
            self.report.time(&name, clock.best_changing(before, after, &calls), self.memory);
        }
    }

    /// A row of matches: they must give this route, or tier 0.
    fn matching(&mut self, call: &str, table: &[u8], flow: &[Vec<u8>; 3], route: Option<&Route>) {
        let name = self.name(call);
        let (expected, written) = match route {
            None => (Matched::default(), Vec::new()),
            Some(route) => (route.matched(), route.octets()),
        };
        let mut buffer = [0u8; LEAST_OUTPUT];
        let output = buffer.as_mut_ptr();
        let calls = black_box(MATCHES).map(|call| move || unsafe { ask(call, table, flow, output) });
        self.report.check(&name, &calls.map(|call| call()), &expected);
        self.report.check_output(&calls, output, LEAST_OUTPUT, &written, &name);
        if self.places <= COUNTED {
            self.report.count(&name, calls);
        } else if let Some(clock) = self.report.clock() {
            self.report.time(&name, clock.best(&calls), self.memory);
        }
    }
}
