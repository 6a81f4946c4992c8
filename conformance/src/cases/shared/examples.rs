//! Shared trees of the routers of document 01's examples, with the answers written from RFC 6625, section 3.2.2, and
//! document 02, W-201.

use crate::{
    cases::{
        document::{in_papers, route, table_image, RD},
        inputs::lists::EMPTY,
        table::memory::OUTPUT,
    },
    compare::{Checked, Harness},
    ffi::{Matched, SharedTree},
    hexadecimal::octets,
    second::{
        matches::shared::Reception,
        table::calls::{TableAnswer, TableCall},
    },
};

/// A shared tree of the table that holds A to E, which are all of 10.0.0.1: C is (C-*,239.1.1.1), D (C-*,C-*), E
/// (C-*,232.9.9.9).
pub struct Example {
    pub shows: &'static str,
    router: &'static str,
    group: &'static str,
    /// Upstream, bidirectional, Source Active routes unused.
    facts: [u32; 3],
    /// `RD` stands for the distinguisher.
    source_actives: &'static str,
    states: &'static str,
    room: usize,
    number: u32,
    tier: u32,
    route: &'static str,
}

/// 239.1.1.1 asked of 10.0.0.1, nothing told.
const ASKED: Example = Example {
    shows: "",
    router: "0A000001",
    group: "EF010101",
    facts: [0; 3],
    source_actives: "0000",
    states: "0000",
    room: 124,
    number: 0,
    tier: 0,
    route: "",
};

/// The same with C as the answer.
const C: Example = Example { tier: 3, route: "C", ..ASKED };

/// A Source Active route (192.0.2.1, 239.1.1.1) of 10.0.0.1.
const ACTIVE: &str = "0001 0004 0A000001 0014 0512 RD 20 C0000201 20 EF010101";

/// This one, and another for 192.0.2.2.
const TWO_ACTIVE: &str = "0002 0004 0A000001 0014 0512 RD 20 C0000201 20 EF010101
    0004 0A000001 0014 0512 RD 20 C0000202 20 EF010101";

/// Its state.
const STATE: &str = "0001 0004 C0000201 0004 EF010101";

pub const EXAMPLES: [Example; 46] = [
    Example { shows: "no condition holds", ..ASKED },
    Example { shows: "upstream", facts: [1, 0, 0], ..C },
    Example { shows: "a BIDIR group", facts: [0, 1, 0], ..C },
    Example { shows: "Source Active routes not used", facts: [0, 0, 1], ..C },
    Example { shows: "a fact is 0 or not", facts: [0x8000_0000, 0, 0], ..C },
    Example {
        shows: "(C-*,C-*) for a group that has no route",
        group: "EF010102",
        facts: [1, 0, 0],
        tier: 4,
        route: "D",
        ..C
    },
    Example { shows: "(C-*,C-*) needs a condition too", group: "EF010102", ..ASKED },
    Example { shows: "another PE has no routes", router: "0A000002", facts: [1, 1, 1], ..ASKED },
    Example { shows: "an SSM group", group: "E8090909", facts: [1, 1, 1], ..ASKED },
    Example { shows: "a route without a state", source_actives: ACTIVE, ..C },
    Example { shows: "a route with its state", source_actives: ACTIVE, states: STATE, ..ASKED },
    Example { shows: "one of two without a state", source_actives: TWO_ACTIVE, states: STATE, ..C },
    Example {
        shows: "two with their states",
        source_actives: TWO_ACTIVE,
        states: "0002 0004 C0000202 0004 EF010101 0004 C0000201 0004 EF010101",
        ..ASKED
    },
    Example {
        shows: "a state of another group",
        source_actives: ACTIVE,
        states: "0001 0004 C0000201 0004 EF010102",
        ..C
    },
    Example {
        shows: "a state of another source",
        source_actives: ACTIVE,
        states: "0001 0004 C0000202 0004 EF010101",
        ..C
    },
    Example {
        shows: "a route of another PE",
        source_actives: "0001 0004 0A000002 0014 0512 RD 20 C0000201 20 EF010101",
        ..ASKED
    },
    Example {
        shows: "a PE of another size",
        source_actives: "0001 0010 0A000001000000000000000000000000 0014 0512 RD 20 C0000201 20 EF010101",
        ..ASKED
    },
    Example {
        shows: "a route for another group",
        source_actives: "0001 0004 0A000001 0014 0512 RD 20 C0000201 20 EF010102",
        ..ASKED
    },
    Example {
        shows: "any distinguisher",
        source_actives: "0001 0004 0A000001 0014 0512 FFFFFFFFFFFFFFFF 20 C0000201 20 EF010101",
        ..C
    },
    Example {
        shows: "the group of a state need not be multicast",
        facts: [1, 0, 0],
        states: "0001 0004 C0000201 0004 0A010101",
        ..C
    },
    Example {
        shows: "octets after the last item",
        facts: [1, 0, 0],
        source_actives: "0000 FF",
        states: "0000 0001",
        ..C
    },
    Example { shows: "a list of no octets", facts: [1, 0, 0], source_actives: "", number: 1, ..ASKED },
    Example { shows: "a list of one octet", facts: [1, 0, 0], states: "00", number: 1, ..ASKED },
    Example { shows: "a count without its item", facts: [1, 0, 0], states: "0001", number: 1, ..ASKED },
    Example {
        shows: "an item without its second field",
        facts: [1, 0, 0],
        states: "0001 0004 C0000201",
        number: 1,
        ..ASKED
    },
    Example { shows: "half a size", facts: [1, 0, 0], states: "0001 0004 C0000201 00", number: 1, ..ASKED },
    Example { shows: "a field cut", facts: [1, 0, 0], states: "0001 0004 C0000201 0004 EF0101", number: 1, ..ASKED },
    Example { shows: "257 items are LONG before SHORT", source_actives: "0101", states: "", number: 8, ..ASKED },
    Example {
        shows: "LONG of the states before SHORT of the routes",
        source_actives: "",
        states: "0101",
        number: 8,
        ..ASKED
    },
    Example { shows: "256 items are not LONG", source_actives: "0100", number: 1, ..ASKED },
    Example { shows: "SHORT before FLOW", router: "", source_actives: "00", number: 1, ..ASKED },
    Example { shows: "a PE of three octets", router: "0A0000", number: 15, ..ASKED },
    Example { shows: "no group", group: "0A010101", number: 15, ..ASKED },
    Example { shows: "a group of the other family", group: "FF0E0000000000000000000000000001", number: 15, ..ASKED },
    Example {
        shows: "an originator of five octets",
        source_actives: "0001 0005 0A00000100 0014 0512 RD 20 C0000201 20 EF010101",
        number: 15,
        ..ASKED
    },
    Example {
        shows: "an originator of 16 octets under AFI 1",
        source_actives: "0001 0010 20010DB8000000000000000000000001 0014 0512 RD 20 C0000201 20 EF010101",
        ..ASKED
    },
    Example { shows: "a state's source of no octets", states: "0001 0000 0004 EF010101", number: 15, ..ASKED },
    Example {
        shows: "FLOW of a later item before an NLRI",
        source_actives: "0002 0004 0A000001 0000 0003 0A0000 0000",
        number: 15,
        ..ASKED
    },
    Example {
        shows: "an NLRI of no octets, though of another PE",
        source_actives: "0001 0004 0A000002 0000",
        number: 1,
        ..ASKED
    },
    Example { shows: "an unknown type", source_actives: "0001 0004 0A000002 0002 0900", number: 2, ..ASKED },
    Example {
        shows: "octets after the NLRI",
        source_actives: "0001 0004 0A000001 0015 0512 RD 20 C0000201 20 EF010101 00",
        number: 3,
        ..ASKED
    },
    Example {
        shows: "a wildcard in a Source Active route",
        source_actives: "0001 0004 0A000001 0010 050E RD 00 20 EF010101",
        number: 4,
        ..ASKED
    },
    Example {
        shows: "an S-PMSI route, before a bad one",
        source_actives: "0002 0004 0A000001 0010 030E RD 00 00 0A000001 0004 0A000001 0000",
        number: 12,
        ..ASKED
    },
    Example {
        shows: "a bad Source Active route for an SSM group, before SPACE",
        group: "E8090909",
        source_actives: "0001 0004 0A000001 0002 0400",
        room: 0,
        number: 5,
        ..ASKED
    },
    Example { shows: "SPACE, though nothing matches", room: 123, number: 16, ..ASKED },
    Example { shows: "SPACE for an SSM group", group: "E8090909", room: 0, number: 16, ..ASKED },
];

impl Example {
    /// Makes the call.
    pub fn ask<Answer>(&self, ask: impl FnOnce(&TableCall) -> Answer) -> Answer {
        let [router, group, source_actives, states] =
            [self.router, self.group, self.source_actives, self.states].map(|text| octets(&text.replace("RD", RD)));
        let [upstream, bidirectional, source_active_unused] = self.facts;
        let reception = Reception {
            prefixes: EMPTY,
            router: &router,
            group: &group,
            facts: SharedTree { upstream, bidirectional, source_active_unused },
            source_actives: &source_actives,
            states: &states,
        };
        ask(&TableCall::MatchShared { reception, output: &OUTPUT[..self.room] })
    }

    /// The whole answer that the papers ask.
    pub fn asked(&self) -> TableAnswer {
        let (nlri, attribute) = route(self.route);
        let [nlri_size, attribute_size] = [&nlri, &attribute].map(|octets| octets.len() as u32);
        let matched = Matched { number: self.number, tier: self.tier, nlri_size, attribute_size };
        let mut output = [nlri, attribute].concat();
        output.resize(self.room, OUTPUT[0]);
        TableAnswer::Matched(matched, output)
    }
}

pub fn all(harness: &mut Harness) -> Checked {
    let image = table_image();
    for example in &EXAMPLES {
        let answer = example.ask(|call| harness.table_call(&image, *call))?;
        in_papers(format!("document 02, W-201, {}", example.shows), answer, example.asked())?;
    }
    Ok(())
}
