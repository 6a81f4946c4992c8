//! Why a flow takes its route (document 02, W-204): examples with their reasons, and all that is asked of matches.

use super::{flows, no_tunnel};
use crate::{
    cases::{document::in_papers, inputs::lists::EMPTY, table::memory::OUTPUT},
    compare::{Checked, Harness},
    ffi::Explained,
    hexadecimal::octets,
    random::Random,
    second::{
        matches::choice::Flow,
        table::calls::{TableAnswer, TableCall},
    },
};

/// A flow of a table that holds routes as `no_tunnel.rs` names them.
pub struct Example {
    pub shows: &'static str,
    pub held: &'static str,
    router: &'static str,
    source: &'static str,
    group: &'static str,
    tier: u32,
    route: &'static str,
    reasons: [u32; 4],
}

/// (192.0.2.1, 232.1.1.1) asked of 10.0.0.1, which has A to E: P1.
const P1: Example = Example {
    shows: "P1",
    held: "A B C D E",
    router: "0A000001",
    source: "C0000201",
    group: "E8010101",
    tier: 1,
    route: "A",
    reasons: [1, 4, 4, 4],
};

/// The same, with no answer.
const NONE: Example = Example { tier: 0, route: "", reasons: [2, 2, 3, 2], ..P1 };

pub const EXAMPLES: [Example; 14] = [
    P1,
    Example { shows: "P2", group: "E8010102", tier: 2, route: "B", reasons: [2, 1, 4, 4], ..P1 },
    Example { shows: "P3: B's class is wrong", group: "EF010101", tier: 3, route: "C", reasons: [2, 3, 1, 4], ..P1 },
    Example { shows: "P4", source: "C0000202", tier: 4, route: "D", reasons: [2, 2, 3, 1], ..P1 },
    Example {
        shows: "P5: E's class is wrong",
        source: "C0000202",
        group: "E8090909",
        tier: 4,
        route: "D",
        reasons: [2, 2, 3, 1],
        ..P1
    },
    Example { shows: "P6: another router", router: "0A000002", ..NONE },
    Example { shows: "the same, ASM", router: "0A000002", group: "EF010101", reasons: [2, 3, 2, 2], ..NONE },
    Example { shows: "no routes", held: "", ..NONE },
    Example { shows: "only (C-*,C-G), SSM", held: "E", group: "E8090909", ..NONE },
    Example { shows: "only (C-S,C-*), ASM", held: "B", group: "EF010101", reasons: [2, 3, 2, 2], ..NONE },
    Example { shows: "nothing after the one taken", held: "A", ..P1 },
    Example { shows: "no tunnel is no such route", held: "a B D", tier: 2, route: "B", reasons: [2, 1, 4, 4], ..P1 },
    Example { shows: "no tunnel at all", held: "a b C d E", ..NONE },
    Example { shows: "the next distinguisher", held: "a A2 B D", route: "A2", ..P1 },
];

impl Example {
    /// Makes the call.
    pub fn ask<Answer>(&self, ask: impl FnOnce(&TableCall) -> Answer) -> Answer {
        let [router, source, group] = [self.router, self.source, self.group].map(octets);
        let flow = Flow { prefixes: EMPTY, router: &router, source: &source, group: &group };
        ask(&explain(flow, &OUTPUT))
    }

    /// The whole answer that the papers ask.
    pub fn asked(&self) -> Option<TableAnswer> {
        let answer = no_tunnel::answer(self.tier, self.route);
        let (matched, output) = answer.matched()?;
        let explained = Explained { matched: *matched, reasons: self.reasons };
        Some(TableAnswer::Explained(explained, output.to_vec()))
    }
}

fn explain<'a>(flow: Flow<'a>, output: &'a [u8]) -> TableCall<'a> {
    TableCall::Explain { flow, output }
}

pub fn all(harness: &mut Harness, random: &mut Random) -> Checked {
    for example in &EXAMPLES {
        let image = no_tunnel::table_of(example.held);
        let answer = example.ask(|call| harness.table_call(&image, *call))?;
        in_papers(format!("document 02, W-204, {}", example.shows), Some(answer), example.asked())?;
    }
    no_tunnel::flows(harness, 1, explain)?;
    flows::all(harness, random, explain)?;
    no_tunnel::flows(harness, 2, explain)
}
