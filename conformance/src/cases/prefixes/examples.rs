//! Prefixes for source-specific groups, with the answers written from document 02, W-209: classes, flows and shared trees of the
//! router of document 01's examples.

use crate::{
    cases::{
        document::in_papers,
        inputs::lists::EMPTY,
        matches::{
            flows::Asks,
            no_tunnel::{answer, table_of},
        },
        shared::matches::UPSTREAM,
        table::memory::OUTPUT,
    },
    compare::{Checked, Harness},
    ffi::{Explained, Group, Matched},
    hexadecimal::octets,
    second::{
        matches::{choice::Flow, shared::Reception},
        table::calls::{TableAnswer, TableCall},
    },
};

/// 239.0.0.0/8, the same in halves, and with a set bit past the length.
const IN_239: &str = "0001 0005 08 EF000000";
const HALVES: &str = "0002 0005 09 EF000000 0005 09 EF800000";
const BAD_BIT: &str = "0001 0005 08 EF000001";

/// 10.0.0.0/8, and a prefix that holds every address.
const IN_10: &str = "0001 0005 08 0A000000";
const ALL: &str = "0001 0005 00 00000000";

/// 239.0.0.1 to 239.0.0.8.
const EIGHT: &str = "0008 0005 20EF000001 0005 20EF000002 0005 20EF000003 0005 20EF000004
    0005 20EF000005 0005 20EF000006 0005 20EF000007 0005 20EF000008";

/// FF3E:1::/32 and FF00::/8.
const IN_3E_1: &str = "0001 0011 20 FF3E0001000000000000000000000000";
const IN_FF: &str = "0001 0011 08 FF000000000000000000000000000000";

/// FF3E::1, FF3E:1::1 and FF0E::1.
const OF_3E: &str = "FF3E0000000000000000000000000001";
const OF_3E_1: &str = "FF3E0001000000000000000000000001";
const OF_0E: &str = "FF0E0000000000000000000000000001";

/// What it shows, AFI, prefixes, group, number, class.
pub const CLASSES: [(&str, u16, &str, &str, u32, u32); 78] = [
    ("none given, SSM", 1, "0000", "E8010101", 0, 2),
    ("none given, ASM", 1, "0000", "EF010101", 0, 1),
    ("none given, octets after", 1, "0000 0009", "E8010101", 0, 2),
    ("none given, IPv6", 2, "0000", OF_3E, 0, 2),
    ("a group that the prefix holds", 1, IN_239, "EF010101", 0, 2),
    ("the standard range is replaced", 1, IN_239, "E8010101", 0, 1),
    ("the first address", 1, IN_239, "EF000000", 0, 2),
    ("the last address", 1, IN_239, "EFFFFFFF", 0, 2),
    ("the address before the first", 1, IN_239, "EEFFFFFF", 0, 1),
    ("octets after the last prefix", 1, "0001 0005 08 EF000000 0005", "EF010101", 0, 2),
    ("the first of two", 1, HALVES, "EF7FFFFF", 0, 2),
    ("the second of two", 1, HALVES, "EF800000", 0, 2),
    ("neither of two", 1, HALVES, "EE800000", 0, 1),
    ("one in the other", 1, "0002 0005 08 EF000000 0005 10 EF010000", "EF010101", 0, 2),
    ("only in the wider", 1, "0002 0005 10 EF010000 0005 08 EF000000", "EF020101", 0, 2),
    ("the same twice", 1, "0002 0005 08 EF000000 0005 08 EF000000", "EF020101", 0, 2),
    ("the standard range given", 1, "0001 0005 08 E8000000", "E8010101", 0, 2),
    ("the standard range given, another group", 1, "0001 0005 08 E8000000", "EF010101", 0, 1),
    ("the standard range among others", 1, "0002 0005 08 EF000000 0005 08 E8000000", "E8010101", 0, 2),
    ("length 0 holds every group", 1, ALL, "E0000000", 0, 2),
    ("length 0 holds the last one", 1, ALL, "EFFFFFFF", 0, 2),
    ("length 0, behind another", 1, "0002 0005 20 EF010101 0005 00 00000000", "E0000000", 0, 2),
    ("length 0 makes nothing multicast", 1, ALL, "F0000000", 15, 0),
    ("length 1", 1, "0001 0005 01 80000000", "E7010101", 0, 2),
    ("length 1 of no group", 1, "0001 0005 01 00000000", "E8010101", 0, 1),
    ("length 4 is all of multicast", 1, "0001 0005 04 E0000000", "E7010101", 0, 2),
    ("length 23", 1, "0001 0005 17 EF010200", "EF0103FF", 0, 2),
    ("length 23, past it", 1, "0001 0005 17 EF010200", "EF010400", 0, 1),
    ("length 23, before it", 1, "0001 0005 17 EF010200", "EF0101FF", 0, 1),
    ("length 31", 1, "0001 0005 1F EF010100", "EF010101", 0, 2),
    ("length 31, past it", 1, "0001 0005 1F EF010100", "EF010102", 0, 1),
    ("a whole address", 1, "0001 0005 20 EF010101", "EF010101", 0, 2),
    ("another whole address", 1, "0001 0005 20 EF010101", "EF010100", 0, 1),
    ("a prefix outside multicast", 1, IN_10, "E8010101", 0, 1),
    ("a prefix outside multicast holds no group", 1, IN_10, "0A010101", 15, 0),
    ("the eighth", 1, EIGHT, "EF000008", 0, 2),
    ("none of eight", 1, EIGHT, "EF000009", 0, 1),
    ("nine", 1, "0009", "EF000001", 18, 0),
    ("nine, before FLOW", 1, "0009", "", 18, 0),
    ("256 and more", 1, "0108", "EF000001", 18, 0),
    ("the most", 1, "FFFF", "EF000001", 18, 0),
    ("eight that are not there", 1, "0008", "EF000001", 1, 0),
    ("no octets", 1, "", "E8010101", 1, 0),
    ("one octet, whose count is 0", 1, "09", "E8010101", 1, 0),
    ("half a size", 1, "0001 00", "EF010101", 1, 0),
    ("a prefix cut", 1, "0001 0005 08 EF0000", "EF010101", 1, 0),
    ("the second cut", 1, "0002 0005 08 EF000000 0005 08", "EF010101", 1, 0),
    ("SHORT before a bad prefix", 1, "0002 0005 08 EF000001 0005", "EF010101", 1, 0),
    ("SHORT before FLOW", 1, "0001", "0A010101", 1, 0),
    ("an empty field", 1, "0001 0000", "EF010101", 18, 0),
    ("a length alone", 1, "0001 0001 00", "EF010101", 18, 0),
    ("three octets of address", 1, "0001 0004 08 EF0000", "EF010101", 18, 0),
    ("five octets of address", 1, "0001 0006 08 EF00000000", "EF010101", 18, 0),
    ("IPv6 under AFI 1", 1, IN_FF, "EF010101", 18, 0),
    ("IPv4 under AFI 2", 2, "0001 0005 08 FF000000", OF_3E, 18, 0),
    ("length 33", 1, "0001 0005 21 EF010101", "EF010101", 18, 0),
    ("length 128 under AFI 1", 1, "0001 0005 80 EF010101", "EF010101", 18, 0),
    ("length 255", 1, "0001 0005 FF EF010101", "EF010101", 18, 0),
    ("the last bit past the length", 1, BAD_BIT, "EF010101", 18, 0),
    ("the next bit past the length", 1, "0001 0005 07 EF000000", "EF010101", 18, 0),
    ("a bit past length 0", 1, "0001 0005 00 80000000", "EF010101", 18, 0),
    ("a bit past length 31", 1, "0001 0005 1F EF010101", "EF010101", 18, 0),
    ("a bad one behind one that holds the group", 1, "0002 0005 08 EF000000 0005 08 EF000001", "EF010101", 18, 0),
    ("a bad one before one that holds the group", 1, "0002 0005 21 EF000000 0005 08 EF000000", "EF010101", 18, 0),
    ("a bad prefix before a group of another size", 1, BAD_BIT, "EF0101", 18, 0),
    ("a bad prefix before a group that is none", 1, BAD_BIT, "0A010101", 18, 0),
    ("a good prefix and a group of another size", 1, IN_239, "EF0101", 15, 0),
    ("a good prefix and a group that is none", 1, IN_239, "0A010101", 15, 0),
    ("FAMILY before nine", 3, "0009", "EF010101", 10, 0),
    ("FAMILY before SHORT", 0, "", "", 10, 0),
    ("FAMILY before a bad prefix", 257, BAD_BIT, "EF010101", 10, 0),
    ("IPv6, held", 2, IN_3E_1, OF_3E_1, 0, 2),
    ("IPv6, replaced", 2, IN_3E_1, OF_3E, 0, 1),
    ("IPv6, all of multicast", 2, IN_FF, OF_0E, 0, 2),
    ("IPv6, length 127", 2, "0001 0011 7F FF0E0000000000000000000000000000", OF_0E, 0, 2),
    ("IPv6, length 128", 2, "0001 0011 80 FF0E0000000000000000000000000000", OF_0E, 0, 1),
    ("IPv6, length 129", 2, "0001 0011 81 FF0E0000000000000000000000000000", OF_0E, 18, 0),
    ("IPv6, a bit past length 127", 2, "0001 0011 7F FF0E0000000000000000000000000001", OF_0E, 18, 0),
];

/// What it shows, the routes held as `matches/no_tunnel.rs` names them, prefixes, source, group, number, tier, route, reasons.
type FlowRow = (&'static str, &'static str, &'static str, &'static str, &'static str, u32, u32, &'static str, [u32; 4]);

pub const FLOWS: [FlowRow; 21] = [
    ("P3, none given", "A B C D E", "0000", "C0000201", "EF010101", 0, 3, "C", [2, 3, 1, 4]),
    ("P3 with 239/8: B, not C", "A B C D E", IN_239, "C0000201", "EF010101", 0, 2, "B", [2, 1, 4, 4]),
    ("the same by halves", "A B C D E", HALVES, "C0000201", "EF010101", 0, 2, "B", [2, 1, 4, 4]),
    ("another source: D, not C", "A B C D E", IN_239, "C0000202", "EF010101", 0, 4, "D", [2, 2, 3, 1]),
    ("P5, none given: D, not E", "A B C D E", "0000", "C0000202", "E8090909", 0, 4, "D", [2, 2, 3, 1]),
    ("P5 with 239/8: E, not D", "A B C D E", IN_239, "C0000202", "E8090909", 0, 3, "E", [2, 3, 1, 4]),
    ("P2 with 239/8: D, not B", "A B C D E", IN_239, "C0000201", "E8010102", 0, 4, "D", [2, 3, 2, 1]),
    ("P1 takes A by every prefix", "A B C D E", IN_239, "C0000201", "E8010101", 0, 1, "A", [1, 4, 4, 4]),
    ("length 0", "A B C D E", ALL, "C0000201", "EF010101", 0, 2, "B", [2, 1, 4, 4]),
    ("a prefix outside multicast", "A B C D E", IN_10, "C0000201", "E8010102", 0, 4, "D", [2, 3, 2, 1]),
    ("eight that hold other groups", "A B C D E", EIGHT, "C0000202", "E8090909", 0, 3, "E", [2, 3, 1, 4]),
    ("only (C-*,C-G), SSM by the prefix", "C", IN_239, "C0000201", "EF010101", 0, 0, "", [2, 2, 3, 2]),
    ("only (C-S,C-*), ASM by the prefix", "B", IN_239, "C0000201", "E8010101", 0, 0, "", [2, 3, 2, 2]),
    ("no tunnel in the tier that is open now", "b C D", IN_239, "C0000201", "EF010101", 0, 4, "D", [2, 2, 3, 1]),
    ("nine prefixes", "A", "0009", "C0000201", "E8010101", 18, 0, "", [0; 4]),
    ("a list that ends early", "A", "0001", "C0000201", "E8010101", 1, 0, "", [0; 4]),
    ("a bad prefix", "A", BAD_BIT, "C0000201", "E8010101", 18, 0, "", [0; 4]),
    ("a bad prefix before a source of another size", "A", BAD_BIT, "C00002", "E8010101", 18, 0, "", [0; 4]),
    ("SHORT before a group that is none", "A", "00", "C0000201", "0A010101", 1, 0, "", [0; 4]),
    ("a good prefix and a source of another size", "A", IN_239, "C00002", "E8010101", 15, 0, "", [0; 4]),
    ("an IPv6 prefix", "A", IN_FF, "C0000201", "E8010101", 18, 0, "", [0; 4]),
];

/// What it shows, prefixes, group, Source Active routes as they are lent, number, tier, route: of a table that holds `HELD`, with the
/// PE upstream.
pub type SharedTreeRow = (&'static str, &'static str, &'static str, &'static str, u32, u32, &'static str);

/// A Source Active route of an unknown type.
const UNREAD: &str = "0001 0004 0A000001 0002 0900";

/// The routes of the table that shared trees are asked of.
pub const HELD: &str = "A B C D E";

pub const SHARED_TREES: [SharedTreeRow; 15] = [
    ("none given", "0000", "EF010101", "0000", 0, 3, "C"),
    ("none given, SSM", "0000", "E8090909", "0000", 0, 0, ""),
    ("239/8 is SSM", IN_239, "EF010101", "0000", 0, 0, ""),
    ("232/8 is ASM with 239/8: E", IN_239, "E8090909", "0000", 0, 3, "E"),
    ("a group of no route: D", IN_239, "E8010101", "0000", 0, 4, "D"),
    ("length 0", ALL, "EF010101", "0000", 0, 0, ""),
    ("eight that hold other groups", EIGHT, "EF010101", "0000", 0, 3, "C"),
    ("nine before LONG", "0009", "EF010101", "0101", 18, 0, ""),
    ("SHORT of the prefixes before LONG", "0001", "EF010101", "0101", 1, 0, ""),
    ("a bad prefix before LONG", BAD_BIT, "EF010101", "0101", 18, 0, ""),
    ("a bad prefix before SHORT", BAD_BIT, "EF010101", "0001", 18, 0, ""),
    ("a bad prefix before FLOW", BAD_BIT, "0A010101", "0000", 18, 0, ""),
    ("a bad prefix before a bad Source Active route", BAD_BIT, "EF010101", UNREAD, 18, 0, ""),
    ("LONG behind good prefixes", IN_239, "EF010101", "0101", 8, 0, ""),
    ("SSM by the prefix, and a bad Source Active route", IN_239, "EF010101", UNREAD, 2, 0, ""),
];

/// Document 01's router.
const ROUTER: [u8; 4] = [10, 0, 0, 1];

/// Asks of a flow.
pub fn ask_flow<Answer>(row: &FlowRow, asks: Asks, ask: impl FnOnce(&TableCall) -> Answer) -> Answer {
    let (_, _, prefixes, source, group, ..) = row;
    let [prefixes, source, group] = [prefixes, source, group].map(|text| octets(text));
    let flow = Flow { prefixes: &prefixes, router: &ROUTER, source: &source, group: &group };
    ask(&asks(flow, &OUTPUT))
}

/// The whole answers that the papers ask, of match and of explain.
pub fn flow_answers(row: &FlowRow) -> [TableAnswer; 2] {
    let (.., number, tier, route, reasons) = *row;
    let (matched, output) = told(number, tier, route);
    let explained = Explained { matched, reasons };
    [TableAnswer::Matched(matched, output.clone()), TableAnswer::Explained(explained, output)]
}

/// Match and explain.
pub const ASKS: [Asks; 2] =
    [|flow, output| TableCall::Match { flow, output }, |flow, output| TableCall::Explain { flow, output }];

pub fn ask_shared_tree<Answer>(row: &SharedTreeRow, ask: impl FnOnce(&TableCall) -> Answer) -> Answer {
    let (_, prefixes, group, source_actives, ..) = row;
    let [prefixes, group, source_actives] = [prefixes, group, source_actives].map(|text| octets(text));
    let reception = Reception {
        prefixes: &prefixes,
        router: &ROUTER,
        group: &group,
        facts: UPSTREAM,
        source_actives: &source_actives,
        states: EMPTY,
    };
    ask(&TableCall::MatchShared { reception, output: &OUTPUT })
}

pub fn shared_tree_answer(row: &SharedTreeRow) -> TableAnswer {
    let (.., number, tier, route) = *row;
    let (matched, output) = told(number, tier, route);
    TableAnswer::Matched(matched, output)
}

/// The answer and the output of this number and route.
fn told(number: u32, tier: u32, route: &str) -> (Matched, Vec<u8>) {
    match answer(tier, route) {
        TableAnswer::Matched(matched, output) => (Matched { number, ..matched }, output),
        other => unreachable!("a match answers {other:?}"),
    }
}

pub fn all(harness: &mut Harness) -> Checked {
    for (shows, afi, prefixes, group, number, group_class) in CLASSES {
        let answer = harness.group_class(afi, &octets(prefixes), &octets(group))?;
        in_papers(format!("document 02, W-209, {shows}"), answer, Group { number, group_class })?;
    }
    for row in &FLOWS {
        for (asks, asked) in ASKS.into_iter().zip(flow_answers(row)) {
            let answer = ask_flow(row, asks, |call| harness.table_call(&table_of(row.1), *call))?;
            in_papers(format!("document 02, W-209, {}", row.0), answer, asked)?;
        }
    }
    for row in &SHARED_TREES {
        let answer = ask_shared_tree(row, |call| harness.table_call(&table_of(HELD), *call))?;
        in_papers(format!("document 02, W-209, shared tree, {}", row.0), answer, shared_tree_answer(row))?;
    }
    Ok(())
}
