//! Source Active routes for SSM groups and those beside them, with the answers written from document 02, W-210: read, written, walked,
//! listed, installed, withdrawn and told of a shared tree.

use crate::{
    cases::{
        document::{in_papers, table_image, RD},
        inputs::samples::address,
        matches::no_tunnel::table_of,
        prefixes::examples::{ask_shared_tree, shared_tree_answer, SharedTreeRow, HELD},
        runs::skips::{self, Example, Listed},
    },
    compare::{Checked, Harness},
    ffi::{Nlri, RouteDistinguisher},
    hexadecimal::octets,
    random::Random,
    second::{
        number::Number,
        runs::run::{OLD, SKIP},
        table::calls::{TableAnswer, TableCall},
        Second,
    },
};

/// What it shows, AFI, octets with `RD` for the distinguisher and `S6` for an IPv6 source, number.
pub const NLRIS: [(&str, u16, &str, u32); 47] = [
    ("231.255.255.255", 1, "0512 RD 20 C0000201 20 E7FFFFFF", 0),
    ("232.0.0.0", 1, "0512 RD 20 C0000201 20 E8000000", 19),
    ("232.255.255.255", 1, "0512 RD 20 C0000201 20 E8FFFFFF", 19),
    ("233.0.0.0", 1, "0512 RD 20 C0000201 20 E9000000", 0),
    ("224.0.0.0", 1, "0512 RD 20 C0000201 20 E0000000", 0),
    ("239.255.255.255", 1, "0512 RD 20 C0000201 20 EFFFFFFF", 0),
    ("no multicast address", 1, "0512 RD 20 C0000201 20 0A010101", 0),
    ("255.62.0.0", 1, "0512 RD 20 C0000201 20 FF3E0000", 0),
    ("a source in the range", 1, "0512 RD 20 E8010101 20 EF010101", 0),
    ("both in the range", 1, "0512 RD 20 E8010101 20 E8010101", 19),
    ("an octet after it", 1, "0512 RD 20 C0000201 20 E8010101 00", 3),
    ("another one after it", 1, "0512 RD 20 C0000201 20 E8010101 0512 RD 20 C0000201 20 E8010101", 3),
    ("an octet after one for an ASM group", 1, "0512 RD 20 C0000201 20 EF010101 00", 3),
    ("an octet left in the body", 1, "0513 RD 20 C0000201 20 E8010101 00", 3),
    ("an octet left in the body and one after", 1, "0513 RD 20 C0000201 20 E8010101 00 00", 3),
    ("a body that ends inside the group", 1, "0511 RD 20 C0000201 20 E80101", 3),
    ("the same with the group's last octet after it", 1, "0511 RD 20 C0000201 20 E8010101", 3),
    ("a body that ends before the group", 1, "050E RD 20 C0000201 20", 3),
    ("a Length past the octets", 1, "0513 RD 20 C0000201 20 E8010101", 1),
    ("a group of 24 bits", 1, "0511 RD 20 C0000201 18 E80101", 4),
    ("a group of 33 bits", 1, "0512 RD 20 C0000201 21 E8010101", 4),
    ("a wildcard group", 1, "050E RD 20 C0000201 00", 4),
    ("a group of 128 bits", 1, "051E RD 20 C0000201 80 FF3E0000000000000000000000000001", 4),
    ("a source of 24 bits", 1, "0511 RD 18 C00002 20 E8010101", 4),
    ("a source of 33 bits", 1, "0512 RD 21 C0000201 20 E8010101", 4),
    ("a wildcard source", 1, "050E RD 00 20 E8010101", 4),
    ("a wildcard source and an octet after", 1, "050E RD 00 20 E8010101 00", 4),
    ("FF3E::1 under AFI 1", 1, "052A RD 80 S6 80 FF3E0000000000000000000000000001", 4),
    ("232.1.1.1 under AFI 2", 2, "0512 RD 20 C0000201 20 E8010101", 4),
    ("a bad AFI", 3, "0512 RD 20 C0000201 20 E8010101", 10),
    ("type 3", 1, "0316 RD 20 C0000201 20 E8010101 0A000001", 0),
    ("type 6", 1, "0616 RD 0000FDE8 20 C0000201 20 E8010101", 0),
    ("type 7", 1, "0716 RD 0000FDE8 20 C0000201 20 E8010101", 0),
    ("a key of type 3", 1, "041C 0316 RD 20 C0000201 20 E8010101 0A000001 0A000002", 0),
    ("a key of type 5", 1, "0418 0512 RD 20 C0000201 20 E8010101 0A000001", 5),
    ("a key of type 5 for an ASM group", 1, "0418 0512 RD 20 C0000201 20 EF010101 0A000001", 5),
    ("the last before FF30::", 2, "052A RD 80 S6 80 FF2FFFFFFFFFFFFFFFFFFFFFFFFFFFFF", 0),
    ("FF30::", 2, "052A RD 80 S6 80 FF300000000000000000000000000000", 19),
    ("the last before FF30:1::", 2, "052A RD 80 S6 80 FF300000FFFFFFFFFFFFFFFFFFFFFFFF", 19),
    ("FF30:1::", 2, "052A RD 80 S6 80 FF300001000000000000000000000000", 0),
    ("FF3F::", 2, "052A RD 80 S6 80 FF3F0000000000000000000000000000", 19),
    ("the last before FF3F:1::", 2, "052A RD 80 S6 80 FF3F0000FFFFFFFFFFFFFFFFFFFFFFFF", 19),
    ("FF3F:1::", 2, "052A RD 80 S6 80 FF3F0001000000000000000000000000", 0),
    ("FF40::", 2, "052A RD 80 S6 80 FF400000000000000000000000000000", 0),
    ("FE30::1, no multicast address", 2, "052A RD 80 S6 80 FE300000000000000000000000000001", 0),
    ("E801:101::, no multicast address", 2, "052A RD 80 S6 80 E8010101000000000000000000000000", 0),
    ("FF3E::1 and an octet after", 2, "052A RD 80 S6 80 FF3E0000000000000000000000000001 00", 3),
];

const S6: &str = "20010DB8000000000000000000000001";

/// What it shows, AFI, route type, source, group, octets of output, number.
pub type Written = (&'static str, u16, u8, &'static str, &'static str, usize, u32);

pub const WRITTEN: [Written; 25] = [
    ("231.255.255.255", 1, 5, "C0000201", "E7FFFFFF", 20, 0),
    ("232.0.0.0", 1, 5, "C0000201", "E8000000", 20, 19),
    ("232.255.255.255", 1, 5, "C0000201", "E8FFFFFF", 20, 19),
    ("233.0.0.0", 1, 5, "C0000201", "E9000000", 20, 0),
    ("no multicast address", 1, 5, "C0000201", "0A010101", 20, 0),
    ("a source in the range", 1, 5, "E8010101", "EF010101", 20, 0),
    ("GROUP before SPACE", 1, 5, "C0000201", "E8010101", 19, 19),
    ("GROUP before an output of no octets", 1, 5, "C0000201", "E8010101", 0, 19),
    ("SPACE for an ASM group", 1, 5, "C0000201", "EF010101", 19, 16),
    ("WIDTH of the source before GROUP", 1, 5, S6, "E8010101", 64, 4),
    ("a wildcard source", 1, 5, "", "E8010101", 64, 4),
    ("a group of the other family", 1, 5, "C0000201", "FF3E0000000000000000000000000001", 64, 4),
    ("a group of three octets", 1, 5, "C0000201", "E80101", 64, 4),
    ("type 3", 1, 3, "C0000201", "E8010101", 24, 0),
    ("type 6", 1, 6, "C0000201", "E8010101", 24, 0),
    ("type 7", 1, 7, "C0000201", "E8010101", 24, 0),
    ("type 1 lacks a group", 1, 1, "C0000201", "E8010101", 14, 0),
    ("type 2 lacks a group", 1, 2, "", "E8010101", 14, 0),
    ("TYPE before GROUP", 1, 8, "C0000201", "E8010101", 64, 2),
    ("FAMILY before GROUP", 0, 5, "C0000201", "E8010101", 64, 10),
    ("FF30::", 2, 5, S6, "FF300000000000000000000000000000", 44, 19),
    ("FF3F:0:FFFF..", 2, 5, S6, "FF3F0000FFFFFFFFFFFFFFFFFFFFFFFF", 0, 19),
    ("FF30:1::", 2, 5, S6, "FF300001000000000000000000000000", 44, 0),
    ("the last before FF30::", 2, 5, S6, "FF2FFFFFFFFFFFFFFFFFFFFFFFFFFFFF", 44, 0),
    ("type 7, FF3E::1", 2, 7, S6, "FF3E0000000000000000000000000001", 48, 0),
];

const READ: &str = "020C RD 0000FDE8";
const KEPT: &str = "0512 RD 20 C0000201 20 EF010101";

pub const RUNS: [Example; 25] = [
    ("one alone", 1, SKIP, "0512 RD 20 C0000201 20 E8010101", &[], [0, 0, 20, 1]),
    ("one alone, old", 1, OLD, "0512 RD 20 C0000201 20 E8010101", &[], [19, 0, 0, 0]),
    ("256 is the old mode", 1, 256, "0512 RD 20 C0000201 20 E8010101", &[], [19, 0, 0, 0]),
    ("one for an ASM group", 1, SKIP, "0512 RD 20 C0000201 20 EF010101", &[KEPT], [0, 1, 20, 0]),
    ("one for an ASM group, old", 1, OLD, "0512 RD 20 C0000201 20 EF010101", &[KEPT], [0, 1, 20, 0]),
    (
        "between two",
        1,
        SKIP,
        "020C RD 0000FDE8|0512 RD 20 C0000201 20|E8010101 020C RD 0000FDE8",
        &[READ, READ],
        [0, 2, 48, 1],
    ),
    (
        "between two, old",
        1,
        OLD,
        "020C RD 0000FDE8|0512 RD 20 C0000201 20|E8010101 020C RD 0000FDE8",
        &[READ],
        [19, 1, 14, 0],
    ),
    (
        "three among unknown types",
        1,
        SKIP,
        "0512 RD 20 C0000201 20 E8000000 0900 0512 RD 20 C0000201 20 E8FFFFFF FF01 00 0512 RD|20 C0000201 20 E8010101
         020C RD 0000FDE8",
        &[READ],
        [0, 1, 79, 5],
    ),
    ("old, behind an unknown type", 1, OLD, "0900 0512 RD 20 C0000201 20 E8010101", &[], [2, 0, 0, 0]),
    (
        "two and those beside the range",
        1,
        SKIP,
        "0512 RD 20 C0000201 20 E8000000|0512 RD 20 C0000201 20 E9000000 0512 RD 20 C0000201 20 E8FFFFFF",
        &["0512 RD 20 C0000201 20 E9000000"],
        [0, 1, 60, 2],
    ),
    ("SHORT", 1, SKIP, "0512 RD 20 C0000201 20 E80101", &[], [1, 0, 0, 0]),
    ("half a header behind it", 1, SKIP, "0512 RD 20 C0000201 20 E8010101 05", &[], [1, 0, 20, 1]),
    ("a Length that cuts it", 1, SKIP, "0511 RD 20 C0000201 20 E8010101 020C RD 0000FDE8", &[], [3, 0, 0, 0]),
    ("a Length of one more", 1, SKIP, "0513 RD 20 C0000201 20 E8010101 00 020C RD 0000FDE8", &[], [3, 0, 0, 0]),
    ("WIDTH", 1, SKIP, "050E RD 00 20 E8010101 020C RD 0000FDE8", &[], [4, 0, 0, 0]),
    ("LENGTH behind it", 1, SKIP, "0512 RD 20 C0000201 20 E8010101 0300", &[], [3, 0, 20, 1]),
    ("inside a key", 1, SKIP, "0418 0512 RD 20 C0000201 20 E8010101 0A000001", &[], [5, 0, 0, 0]),
    (
        "type 7",
        1,
        SKIP,
        "0716 RD 0000FDE8 20 C0000201 20 E8010101",
        &["0716 RD 0000FDE8 20 C0000201 20 E8010101"],
        [0, 1, 24, 0],
    ),
    (
        "FF3E::1",
        2,
        SKIP,
        "052A RD 80 20010DB8000000000000000000000001 80 FF3E0000|000000000000000000000001|020C RD 0000FDE8",
        &[READ],
        [0, 1, 58, 1],
    ),
    (
        "FF3E::1, old",
        2,
        OLD,
        "020C RD 0000FDE8 052A RD 80 20010DB8000000000000000000000001 80 FF3E0000|000000000000000000000001",
        &[READ],
        [19, 1, 14, 0],
    ),
    (
        "FF3E:1::1",
        2,
        SKIP,
        "052A RD 80 20010DB8000000000000000000000001 80 FF3E0001000000000000000000000001",
        &["052A RD 80 20010DB8000000000000000000000001 80 FF3E0001000000000000000000000001"],
        [0, 1, 44, 0],
    ),
    ("232.1.1.1 under AFI 2", 2, SKIP, "0512 RD 20 C0000201 20 E8010101", &[], [4, 0, 0, 0]),
    ("cut before its last octet", 1, SKIP, "0512 RD 20 C0000201 20 E80101|01", &[], [0, 0, 20, 1]),
    ("cut in its header, a piece of none", 1, SKIP, "05||12 RD 20 C0000201 20 E8010101|", &[], [0, 0, 20, 1]),
    ("a bad AFI", 3, SKIP, "0512 RD 20 C0000201 20 E8010101", &[], [10, 0, 0, 0]),
];

const ONE: &str = "0512 0000006400000007 20 C0000201 20 E8010101";
const AMONG: &str = "020C 0000006400000007 0000FDE8 0512 0000006400000007 20 C0000201 20 E8010101 0900
    0512 0000006400000007 20 C0000201 20 EF010101 0512 0000006400000007 20 C0000201 20 E8FFFFFF";

pub const LISTINGS: [Listed; 7] = [
    ("no line for a discarded NLRI", &[], ONE, "MVT list 1\nend 20 0 1\n"),
    ("a discarded NLRI, old", &[b"old"], ONE, "MVT list 1\nstop 0 19\n"),
    ("discarded ones among others", &[], AMONG, "MVT list 1\n0 2 12\n36 5 18\nend 76 0 3\n"),
    ("discarded ones among others, old", &[b"old"], AMONG, "MVT list 1\n0 2 12\nstop 14 19\n"),
    ("discarded ones, `old` and another", &[b"old", b"x"], AMONG, "MVT list 1\n0 2 12\n36 5 18\nend 76 0 3\n"),
    (
        "a stop behind a discarded one",
        &[],
        "0512 0000006400000007 20 C0000201 20 E8010101 0300",
        "MVT list 1\nstop 20 3 1\n",
    ),
    (
        "type 7 for an SSM group",
        &[],
        "0716 0000006400000007 0000FDE8 20 C0000201 20 E8010101",
        "MVT list 1\n0 7 22\nend 24 0 0\n",
    ),
];

/// What it shows, NLRI, attribute, the number of its install and of its withdrawal, in the table that holds A to E.
type Installed = (&'static str, &'static str, &'static str, u32, u32);

pub const INSTALLED: [Installed; 7] = [
    ("one for an SSM group", "0512 RD 20 C0000201 20 E8010101", "00 06 000010 0A000001", 19, 19),
    ("and a bad attribute", "0512 RD 20 C0000201 20 E8010101", "00 08 000010", 19, 19),
    ("and no attribute", "0512 RD 20 C0000201 20 E8FFFFFF", "", 19, 19),
    ("an octet after it", "0512 RD 20 C0000201 20 E8010101 00", "00 06 000010 0A000001", 3, 3),
    ("one for an ASM group", "0512 RD 20 C0000201 20 EF010101", "00 06 000010 0A000001", 12, 12),
    ("type 6", "0616 RD 0000FDE8 20 C0000201 20 E8010101", "00 06 000010 0A000001", 12, 12),
    ("type 3", "0316 RD 20 C0000201 20 E8010101 0A000001", "00 06 000010 0A000001", 0, 0),
];

/// 239.0.0.0/8, and the same with a set bit past the length.
const IN_239: &str = "0001 0005 08 EF000000";
const BAD_BIT: &str = "0001 0005 08 EF000001";

/// Lists: one of the PE asked for 232.9.9.9, one of another PE; one for 239.1.1.1 before it; it before one of type 3, and behind; with
/// an octet after the NLRI; one for 239.1.1.1 alone.
const LISTED: &str = "0001 0004 0A000001 0014 0512 0000006400000007 20 C0000201 20 E8090909";
const OF_OTHER: &str = "0001 0004 0A000002 0014 0512 0000006400000007 20 C0000201 20 E8090909";
const SECOND: &str = "0002 0004 0A000001 0014 0512 0000006400000007 20 C0000201 20 EF010101
    0004 0A000001 0014 0512 0000006400000007 20 C0000201 20 E8090909";
const BEFORE_KIND: &str = "0002 0004 0A000001 0014 0512 0000006400000007 20 C0000201 20 E8090909
    0004 0A000001 0010 030E 0000006400000007 00 00 0A000001";
const BEHIND_KIND: &str = "0002 0004 0A000001 0010 030E 0000006400000007 00 00 0A000001
    0004 0A000001 0014 0512 0000006400000007 20 C0000201 20 E8090909";
const FOLLOWED: &str = "0001 0004 0A000001 0015 0512 0000006400000007 20 C0000201 20 E8090909 00";
const LISTED_ASM: &str = "0001 0004 0A000001 0014 0512 0000006400000007 20 C0000201 20 EF010101";

pub const SHARED_TREES: [SharedTreeRow; 12] = [
    ("one for an SSM group", "0000", "EF010101", LISTED, 19, 0, ""),
    ("of another PE", "0000", "EF010101", OF_OTHER, 19, 0, ""),
    ("behind a good one", "0000", "EF010101", SECOND, 19, 0, ""),
    ("before KIND", "0000", "EF010101", BEFORE_KIND, 19, 0, ""),
    ("behind KIND", "0000", "EF010101", BEHIND_KIND, 12, 0, ""),
    ("an octet after it", "0000", "EF010101", FOLLOWED, 3, 0, ""),
    ("of the SSM group asked", "0000", "E8090909", LISTED, 19, 0, ""),
    ("ASM by the prefix", IN_239, "E8090909", LISTED, 19, 0, ""),
    ("SSM by the prefix: E", IN_239, "E8090909", LISTED_ASM, 0, 3, "E"),
    ("SSM by the prefix, and asked", IN_239, "EF010101", LISTED_ASM, 0, 0, ""),
    ("one for an ASM group: C", "0000", "EF010101", LISTED_ASM, 0, 3, "C"),
    ("behind a bad prefix", BAD_BIT, "EF010101", LISTED, 18, 0, ""),
];

/// The octets of an example.
pub fn nlri(text: &str) -> Vec<u8> {
    octets(&text.replace("RD", RD).replace("S6", S6))
}

pub fn all(harness: &mut Harness, random: &mut Random) -> Checked {
    for (shows, afi, text, number) in NLRIS {
        let answer = harness.nlri_reading(afi, &nlri(text))?.number;
        in_papers(format!("document 02, W-210, {shows}"), answer, number)?;
    }
    for row in WRITTEN {
        written(harness, row)?;
    }
    skips::examples(harness, random, "W-210", &RUNS)?;
    skips::listings(harness, "W-210", &LISTINGS)?;
    for row in INSTALLED {
        installed(harness, row)?;
    }
    for row in &SHARED_TREES {
        let answer = ask_shared_tree(row, |call| harness.table_call(&table_of(HELD), *call))?;
        in_papers(format!("document 02, W-210, shared tree, {}", row.0), answer, shared_tree_answer(row))?;
    }
    Ok(())
}

/// The encoding, or the number, that the second decoder has for a row; where it is written, reading gives its fields back.
pub fn encoding(second: &Second, row: Written) -> (Nlri, Result<Vec<u8>, Number>) {
    let (_, afi, route_type, source, group, room, _) = row;
    let nlri = Nlri {
        distinguisher: RouteDistinguisher { octets: [0, 0, 0, 100, 0, 0, 0, 7] },
        source: address(&octets(source)),
        group: address(&octets(group)),
        originator: address(&[10, 0, 0, 1]),
        source_as: 65_000,
        route_type,
    };
    (nlri, second.nlri_write(afi, &nlri, &[], &[], room))
}

fn written(harness: &mut Harness, row: Written) -> Checked {
    let (shows, afi, _, _, _, room, number) = row;
    let (nlri, encoding) = encoding(&harness.second, row);
    harness.nlri_write(afi, nlri, &[], &[], room)?;
    in_papers(format!("document 02, W-210, writing, {shows}"), encoding.err().map_or(0, Number::value), number)
}

/// Asks for the install of a row, and for its withdrawal.
pub fn install_and_withdraw<Answer>(row: Installed, mut ask: impl FnMut(&TableCall) -> Answer) -> [Answer; 2] {
    let (nlri, attribute) = (nlri(row.1), octets(row.2));
    [TableCall::Install { nlri: &nlri, attribute: &attribute }, TableCall::Withdraw { nlri: &nlri }].map(|it| ask(&it))
}

fn installed(harness: &mut Harness, row: Installed) -> Checked {
    let image = table_image();
    let [install, withdraw] = install_and_withdraw(row, |call| harness.table_call(&image, *call));
    let install = match install? {
        TableAnswer::Installed(installed) => installed.number,
        other => unreachable!("an install answers {other:?}"),
    };
    let asked = (row.3, TableAnswer::Withdrawn(row.4));
    in_papers(format!("document 02, W-210, {}", row.0), (install, withdraw?), asked)
}
