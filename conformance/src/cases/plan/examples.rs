//! Plans: examples with the answers written from document 02, W-214. AFI 1, originator 10.0.0.1, distinguisher 100:7.

use crate::{
    cases::{
        document::in_papers,
        inputs::{lists::list, places::laid_out, routes::s_pmsi},
    },
    compare::{Checked, Harness},
    ffi::Judged,
    hexadecimal::octets,
    second::plan::wish::{Wish, LONGEST_PROPOSAL},
};

pub const ORIGINATOR: &str = "0A000001";
pub const DISTINGUISHER: &str = "0000006400000007";

/// Prefixes: none, and one that makes 239.1.1.1 the only SSM group.
const STANDARD: &str = "0000";
const ONLY_U: &str = "0001 0005 20 EF010101";

/// The octets that a letter of a flow or a route stands for. Sources: `a` and `b`; one of no octets, one of five and one of IPv6. Groups: `S`
/// and `T` are SSM, `U` and `V` ASM; one that is not multicast, one of no octets and one of IPv6.
const ADDRESSES: [(char, &str); 12] = [
    ('a', "C0000201"),
    ('b', "C0000202"),
    ('w', ""),
    ('n', "C000020100"),
    ('x', "20010DB8000000000000000000000001"),
    ('S', "E8010101"),
    ('T', "E8010102"),
    ('U', "EF010101"),
    ('V', "EF010102"),
    ('N', "0A010101"),
    ('W', ""),
    ('X', "FF3E0000000000000000000000000001"),
];

/// Attributes: 1 to 3 differ in flags and label alone; 6 begins with 1; 0 names no tunnel; `e` is BIER with label 0; then those that are
/// not read: SHORT, TUNNEL, IDENT, LONG.
const ATTRIBUTES: [(char, &str); 12] = [
    ('1', "00 06 000000 0A000001"),
    ('2', "01 06 000000 0A000001"),
    ('3', "00 06 000010 0A000001"),
    ('4', "00 0B 000010 01 0002 0A000001"),
    ('5', "00 03 000000 0A000001 E8010101"),
    ('6', "00 06 000000 0A000001 000000000000000000000000"),
    ('0', "01 00 000000"),
    ('e', "00 0B 00000F 01 0002 0A000001"),
    ('s', "00 06 0000"),
    ('t', "00 08 000000"),
    ('d', "00 06 000000 0A0000"),
    (
        'l',
        "00 02 000010 06 0001 04 0A000001 0032 \
         0000000000000000000000000000000000000000000000000000000000000000000000000000000000000000000000000000",
    ),
];

/// What it shows, the prefixes, the flows, the routes proposed, and whether they are accepted. A flow or route is a source, a group and an
/// attribute; `*` is the wildcard. Behind a route, `'` is a mark of 1, `"` one of 2, `~` an octet before the mark, `@` another originator,
/// `%` one of 16 octets that begins alike, `#` another distinguisher, `<` a place without its last octet. `.` is a place of zeros, `?` one of
/// set bits, `i` an Intra-AS I-PMSI route.
type Example = (&'static str, &'static str, &'static str, &'static str, bool);

pub const JUDGED: [Example; 75] = [
    ("no flows, no routes", STANDARD, "", "", true),
    ("no flows, a route", STANDARD, "", "**1", true),
    ("no flows, routes with two attributes", STANDARD, "", "**1 aS2", true),
    ("no flows, a bad place", STANDARD, "", "?", false),
    ("no flows, a place of zeros", STANDARD, "", ".", false),
    ("no flows, a cut place", STANDARD, "", "**1<", false),
    ("no flows, another originator", STANDARD, "", "**1@", false),
    ("no flows, another distinguisher", STANDARD, "", "**1#", false),
    ("no flows, a repeated NLRI", STANDARD, "", "**1 **2", false),
    ("a flow, no routes", STANDARD, "aS1", "", false),
    ("a flow and its route", STANDARD, "aS1", "aS1", true),
    ("both wildcards", STANDARD, "aS1", "**1", true),
    ("both wildcards, ASM", STANDARD, "aU1", "**1", true),
    ("other flags", STANDARD, "aS1", "aS2", false),
    ("another label", STANDARD, "aS1", "aS3", false),
    ("another tunnel", STANDARD, "aS1", "aS4", false),
    ("an attribute that begins with the one wanted", STANDARD, "aS1", "aS6", false),
    ("an attribute with which the one wanted begins", STANDARD, "aS6", "aS1", false),
    ("another source", STANDARD, "aS1", "bS1", false),
    ("another group", STANDARD, "aS1", "aT1", false),
    ("a route for the source, SSM", STANDARD, "aS1 aT1", "a*1", true),
    ("a route for the source, ASM", STANDARD, "aU1", "a*1", false),
    ("a route for the group, ASM", STANDARD, "aU1 bU1", "*U1", true),
    ("a route for the group, SSM", STANDARD, "aS1", "*S1", false),
    ("one route for all", STANDARD, "aS4 aT4 bU4 bV4", "**4", true),
    ("one of four is not served", STANDARD, "aS4 aT4 bU4 bV5", "**4", false),
    ("an exception", STANDARD, "aS1 aT2 bU1", "**1 aT2", true),
    ("the same the other way round", STANDARD, "aS1 aT2 bU1", "aT2 **1", true),
    ("an exception for a source", STANDARD, "aS2 aT2 bS1 aU1", "**1 a*2", true),
    ("an exception for a group", STANDARD, "aU2 bU2 aV1 aS1", "**1 *U2", true),
    ("an exception of an exception", STANDARD, "aS3 aT2 bT1", "aS3 a*2 **1", true),
    ("the same, and the exception is lost", STANDARD, "aS3 aT2 bT1", "a*2 **1", false),
    ("the first flow is not served", STANDARD, "aT2 aS1 bU1", "**1", false),
    ("the last flow is not served", STANDARD, "aS1 bU1 aT2", "**1", false),
    ("an earlier tier has another attribute: 1 and 4", STANDARD, "aS1", "aS2 **1", false),
    ("an earlier tier has another attribute: 2 and 4", STANDARD, "aS1", "a*2 **1", false),
    ("an earlier tier has another attribute: 3 and 4", STANDARD, "aU1", "*U2 **1", false),
    ("an earlier tier has it: 1", STANDARD, "aS1", "**2 a*2 aS1", true),
    ("an earlier tier has it: 2", STANDARD, "aS1", "**2 a*1", true),
    ("an earlier tier has it: 3", STANDARD, "aU1", "**2 *U1", true),
    ("a tier of the other class is passed over: 2", STANDARD, "aU1", "a*2 **1", true),
    ("a tier of the other class is passed over: 3", STANDARD, "aS1", "*S2 **1", true),
    ("a route that no flow takes", STANDARD, "aS1", "aS1 bT2", true),
    ("more routes than flows", STANDARD, "aS1", "aS1 bT2 bU3 **4", true),
    ("a route that names no tunnel is passed over", STANDARD, "aS1", "aS0 **1", true),
    ("one that names no tunnel, alone", STANDARD, "aS1", "aS0", false),
    ("one that names no tunnel, which nobody takes", STANDARD, "aS1", "aS1 **0", true),
    ("a repeated place", STANDARD, "aS1", "aS1 aS1", false),
    ("repeated with another attribute", STANDARD, "aS1", "aS1 aS2", false),
    ("repeated with another mark", STANDARD, "aS1", "aS1 aS1'", false),
    ("repeated, with one between", STANDARD, "aS1", "aS1 **2 aS1", false),
    ("an NLRI repeated that names no tunnel", STANDARD, "aS1", "aS1 **0 **0", false),
    ("a mark", STANDARD, "aS1", "**1'", true),
    ("a mark of 2", STANDARD, "aS1", "**1\"", false),
    ("an octet before the mark", STANDARD, "aS1", "**1~", false),
    ("a place of zeros behind", STANDARD, "aS1", "**1 .", false),
    ("a place of zeros before", STANDARD, "aS1", ". **1", false),
    ("a bad place behind", STANDARD, "aS1", "**1 ?", false),
    ("a bad place before", STANDARD, "aS1", "? **1", false),
    ("a cut place", STANDARD, "aS1", "**1<", false),
    ("a cut place behind a whole one", STANDARD, "aS1", "**1 aT2<", false),
    ("BIER with label 0 that nobody takes", STANDARD, "aS1", "**1 bTe", false),
    ("an attribute that is not read", STANDARD, "aS1", "**1 bTd", false),
    ("another kind of route", STANDARD, "aS1", "**1 i", false),
    ("a route of the other family", STANDARD, "aS1", "**1 xX1", false),
    ("another originator beside", STANDARD, "aS1", "**1 aS1@", false),
    ("another originator, which nobody else serves", STANDARD, "aS1", "aS1@", false),
    ("an originator of 16 octets that begins alike", STANDARD, "aS1", "**1 aS1%", false),
    ("another distinguisher beside", STANDARD, "aS1", "**1 bT1#", false),
    ("another distinguisher, the same flow", STANDARD, "aS1", "aS1 aS1#", false),
    ("a flow that is listed again", STANDARD, "aS1 aT2 aS1", "**1 aT2", true),
    ("prefixes make a group SSM", ONLY_U, "aU1", "a*1", true),
    ("prefixes make a group SSM, and it loses its route", ONLY_U, "aU1", "*U1", false),
    ("prefixes make a group ASM", ONLY_U, "aS1", "*S1", true),
    ("prefixes make a group ASM, and it loses its route", ONLY_U, "aS1", "a*1", false),
];

/// What it shows, the AFI, the prefixes, the octets of the originator and of the distinguisher, the flows, the count that the list tells
/// where it is another, the octets of the output, and those of the places, and the numbers of a planner and of a judge.
type Refused = (&'static str, u16, &'static str, [usize; 2], &'static str, Option<usize>, usize, usize, [u32; 2]);

pub const REFUSED: [Refused; 56] = [
    ("nothing is wrong", 1, STANDARD, [4, 8], "aS1 bU2", None, 256, 0, [0, 0]),
    ("an originator of 16 octets", 1, STANDARD, [16, 8], "aS1 bU2", None, 256, 0, [0, 0]),
    ("no flows, no room", 2, STANDARD, [4, 8], "", None, 0, 0, [0, 0]),
    ("AFI 0", 0, STANDARD, [4, 8], "aS1", None, 128, 0, [10, 10]),
    ("AFI 3", 3, STANDARD, [4, 8], "aS1", None, 128, 0, [10, 10]),
    ("AFI 257", 257, STANDARD, [4, 8], "aS1", None, 128, 0, [10, 10]),
    ("FAMILY before RANGE", 3, "0009", [4, 8], "aS1", None, 128, 0, [10, 10]),
    ("nine prefixes", 1, "0009", [4, 8], "aS1", None, 128, 0, [18, 18]),
    ("prefixes that end early", 1, "0001 0005 08", [4, 8], "aS1", None, 128, 0, [1, 1]),
    ("no octets of prefixes", 1, "", [4, 8], "aS1", None, 128, 0, [1, 1]),
    ("a bit past a prefix's length", 1, "0001 0005 07 E9000000", [4, 8], "aS1", None, 128, 0, [18, 18]),
    ("RANGE before LONG", 1, "0009", [4, 8], "aS1", Some(65), 128, 8_193, [18, 18]),
    ("SHORT of the prefixes before LONG", 1, "00", [4, 8], "aS1", Some(65), 128, 0, [1, 1]),
    ("65 flows", 1, STANDARD, [4, 8], "aS1", Some(65), 8_320, 0, [8, 8]),
    ("256 flows", 1, STANDARD, [4, 8], "aS1", Some(256), 8_320, 0, [8, 8]),
    ("8,193 octets of places", 1, STANDARD, [4, 8], "aS1", None, 128, 8_193, [0, 8]),
    ("65 places", 1, STANDARD, [4, 8], "", None, 0, 8_320, [0, 8]),
    ("8,192 octets of places", 1, STANDARD, [4, 8], "aS1", None, 128, 8_192, [0, 0]),
    ("LONG of the flows before SHORT", 1, STANDARD, [4, 8], "", Some(65), 8_320, 0, [8, 8]),
    ("LONG of the places before SHORT", 1, STANDARD, [4, 8], "aS1", Some(2), 256, 8_193, [1, 8]),
    ("LONG before FLOW", 1, STANDARD, [5, 8], "aS1", Some(65), 8_320, 8_193, [8, 8]),
    ("a list that ends early", 1, STANDARD, [4, 8], "aS1 bU2", Some(3), 384, 0, [1, 1]),
    ("SHORT before FLOW", 1, STANDARD, [5, 7], "aS1", Some(2), 256, 0, [1, 1]),
    ("an originator of 5 octets", 1, STANDARD, [5, 8], "aS1", None, 128, 0, [15, 15]),
    ("no originator", 1, STANDARD, [0, 8], "aS1", None, 128, 0, [15, 15]),
    ("a distinguisher of 7 octets", 1, STANDARD, [4, 7], "aS1", None, 128, 0, [15, 15]),
    ("a distinguisher of 9 octets", 1, STANDARD, [4, 9], "aS1", None, 128, 0, [15, 15]),
    ("no flows, and an originator of 5 octets", 1, STANDARD, [5, 8], "", None, 0, 0, [15, 15]),
    ("no flows, and a distinguisher of 7 octets", 1, STANDARD, [4, 7], "", None, 0, 0, [15, 15]),
    ("a source of 5 octets", 1, STANDARD, [4, 8], "aS1 nS1", None, 256, 0, [15, 15]),
    ("a source of the other family", 1, STANDARD, [4, 8], "xS1 aS1", None, 256, 0, [15, 15]),
    ("a wildcard source", 1, STANDARD, [4, 8], "aS1 wS1 bS1", None, 384, 0, [15, 15]),
    ("a wildcard group", 1, STANDARD, [4, 8], "aS1 aW1", None, 256, 0, [15, 15]),
    ("a group of the other family", 1, STANDARD, [4, 8], "aS1 aX1", None, 256, 0, [15, 15]),
    ("a group that is not multicast", 1, STANDARD, [4, 8], "aS1 aN1", None, 256, 0, [15, 15]),
    (
        "a group that a prefix holds and is not multicast",
        1,
        "0001 0005 08 0A000000",
        [4, 8],
        "aN1",
        None,
        128,
        0,
        [15, 15],
    ),
    ("FLOW before an attribute of an earlier flow", 1, STANDARD, [4, 8], "aSs bUe aN1", None, 384, 0, [15, 15]),
    ("an attribute of 4 octets", 1, STANDARD, [4, 8], "aS1 aTs", None, 256, 0, [1, 1]),
    ("an unknown tunnel type", 1, STANDARD, [4, 8], "aS1 aTt", None, 256, 0, [6, 6]),
    ("a bad identifier", 1, STANDARD, [4, 8], "aS1 aTd", None, 256, 0, [7, 7]),
    ("an attribute of 65 octets", 1, STANDARD, [4, 8], "aS1 aTl", None, 256, 0, [8, 8]),
    ("of two the first decides: IDENT", 1, STANDARD, [4, 8], "aS1 aTd aUs", None, 384, 0, [7, 7]),
    ("of two the first decides: SHORT", 1, STANDARD, [4, 8], "aS1 aTs aUd", None, 384, 0, [1, 1]),
    ("reading before LABEL of an earlier flow", 1, STANDARD, [4, 8], "aSe aT1 aUd", None, 384, 0, [7, 7]),
    ("reading before tunnel type 0 of an earlier flow", 1, STANDARD, [4, 8], "aS0 aT1 aUd", None, 384, 0, [7, 7]),
    ("reading before CONFLICT", 1, STANDARD, [4, 8], "aS1 aS2 aUd", None, 384, 0, [7, 7]),
    ("BIER with label 0", 1, STANDARD, [4, 8], "aS1 aTe", None, 256, 0, [9, 9]),
    ("LABEL before TUNNEL of an earlier flow", 1, STANDARD, [4, 8], "aS0 aT1 aUe", None, 384, 0, [9, 9]),
    ("LABEL before CONFLICT", 1, STANDARD, [4, 8], "aS1 aS2 aUe", None, 384, 0, [9, 9]),
    ("tunnel type 0", 1, STANDARD, [4, 8], "aS1 aT0", None, 256, 0, [6, 6]),
    ("TUNNEL before CONFLICT", 1, STANDARD, [4, 8], "aS1 aS2 aU0", None, 384, 0, [6, 6]),
    ("a flow with two attributes", 1, STANDARD, [4, 8], "aS1 aT1 aS2", None, 384, 0, [20, 20]),
    ("CONFLICT before SPACE", 1, STANDARD, [4, 8], "aS1 aS2", None, 255, 0, [20, 20]),
    ("an octet too few for two flows", 1, STANDARD, [4, 8], "aS1 aT1", None, 255, 0, [16, 0]),
    ("a flow that is listed again is counted again", 1, STANDARD, [4, 8], "aS1 aS1", None, 255, 0, [16, 0]),
    ("no room", 1, STANDARD, [4, 8], "aS1", None, 0, 0, [16, 0]),
];

/// What it shows, the prefixes, the flows, and the most routes that may be proposed for them.
pub const PLANNED: [(&str, &str, &str, u32); 18] = [
    ("no flows", STANDARD, "", 0),
    ("one flow", STANDARD, "aS1", 1),
    ("one flow, listed three times", STANDARD, "aS1 aS1 aS1", 1),
    ("two flows, one attribute", STANDARD, "aS1 bU1", 1),
    ("four flows, one attribute", STANDARD, "aS4 aT4 bU4 bV4", 1),
    ("two flows, two attributes: a tie", STANDARD, "aS1 bU2", 2),
    ("three flows, three attributes", STANDARD, "aS1 aT2 bU3", 3),
    ("one of three wants another", STANDARD, "aS1 aT2 bU1", 2),
    ("the first wants another", STANDARD, "aT2 aS1 bU1", 2),
    ("two of four want others", STANDARD, "aS1 aT2 bU3 bV1", 3),
    ("a tie of two and two", STANDARD, "aS1 bV2 aU1 bT2", 3),
    ("listed often is not wanted by many", STANDARD, "aS1 aS1 aS1 aT2 bU2", 2),
    ("listed often, behind", STANDARD, "aT2 bU2 aS1 aS1 aS1", 2),
    ("listed again, the commonest", STANDARD, "aS1 aT1 aS1 bU2", 2),
    ("one group, two attributes", STANDARD, "aU1 bU2", 2),
    ("attributes of which one begins with the other", STANDARD, "aS1 aT6 bU6", 2),
    ("by prefixes", ONLY_U, "aU1 bU2 aV1", 2),
    ("by prefixes, SSM and ASM", ONLY_U, "aS1 bS2 aU3", 3),
];

fn named(rows: &[(char, &str)], name: char) -> Vec<u8> {
    let (_, text) = rows.iter().find(|(known, _)| *known == name).expect("a letter of the examples");
    octets(text)
}

/// The source, group and attribute of three letters.
fn fields(letters: &str) -> [Vec<u8>; 3] {
    let letters: Vec<char> = letters.chars().collect();
    let address = |name: char| if name == '*' { Vec::new() } else { named(&ADDRESSES, name) };
    [address(letters[0]), address(letters[1]), named(&ATTRIBUTES, letters[2])]
}

/// The items of a list of flows.
pub fn items(flows: &str) -> Vec<[Vec<u8>; 3]> {
    flows.split_whitespace().map(fields).collect()
}

fn place(name: &str) -> Vec<u8> {
    match name {
        "." => return vec![0; 128],
        "?" => return vec![0xFF; 128],
        "i" => return laid_out(&octets("010C 0000006400000007 0A000001"), &named(&ATTRIBUTES, '1'), 0),
        _ => {}
    }
    let (letters, marks) = name.split_at(3);
    let [source, group, attribute] = fields(letters);
    let originator = match marks {
        "@" => octets("0A000002"),
        "%" => octets("0A000001000000000000000000000000"),
        _ => octets(ORIGINATOR),
    };
    let distinguisher = octets(if marks == "#" { "0000006400000008" } else { DISTINGUISHER });
    let mark = match marks {
        "'" => 1,
        "\"" => 2,
        _ => 0,
    };
    let mut place = laid_out(&s_pmsi(&distinguisher, &source, &group, &originator), &attribute, mark);
    place[126] = u8::from(marks == "~");
    place.truncate(if marks == "<" { 127 } else { 128 });
    place
}

/// The places of an example.
pub fn places(routes: &str) -> Vec<u8> {
    routes.split_whitespace().flat_map(place).collect()
}

pub fn all(harness: &mut Harness) -> Checked {
    let [originator, distinguisher] = [ORIGINATOR, DISTINGUISHER].map(octets);
    for (shows, prefixes, flows, routes, accepted) in JUDGED {
        let (prefixes, flows) = (octets(prefixes), list(&items(flows)));
        let wish =
            Wish { afi: 1, prefixes: &prefixes, originator: &originator, distinguisher: &distinguisher, flows: &flows };
        let answer = harness.judge(&wish, &places(routes))?;
        in_papers(format!("document 02, W-214, {shows}"), answer, Judged { number: 0, accepted: accepted.into() })?;
    }
    for (shows, prefixes, flows, most) in PLANNED {
        let (prefixes, flows) = (octets(prefixes), list(&items(flows)));
        let wish =
            Wish { afi: 1, prefixes: &prefixes, originator: &originator, distinguisher: &distinguisher, flows: &flows };
        let answer = harness.plan(&wish, &[0xA5; LONGEST_PROPOSAL])?;
        let asked = (0, answer.routes.min(most), most as usize);
        let told = (answer.number, answer.routes, harness.second.most_routes(&wish));
        in_papers(format!("document 02, W-214, {shows}"), told, asked)?;
    }
    refused(harness)
}

/// A wish of `REFUSED`: prefixes, originator, distinguisher and flows.
pub fn refused_wish((_, _, prefixes, sizes, flows, count, _, _, _): &Refused) -> [Vec<u8>; 4] {
    let mut listed = list(&items(flows));
    if let Some(count) = count {
        listed[..2].copy_from_slice(&(*count as u16).to_be_bytes());
    }
    let [mut originator, mut distinguisher] = [ORIGINATOR, DISTINGUISHER].map(octets);
    originator.resize(sizes[0], 0);
    distinguisher.resize(sizes[1], 0);
    [octets(prefixes), originator, distinguisher, listed]
}

fn refused(harness: &mut Harness) -> Checked {
    for row in &REFUSED {
        let [prefixes, originator, distinguisher, flows] = refused_wish(row);
        let (shows, afi, _, _, _, _, room, proposed, [planner, judge]) = *row;
        let wish =
            Wish { afi, prefixes: &prefixes, originator: &originator, distinguisher: &distinguisher, flows: &flows };
        let numbers =
            [harness.plan(&wish, &vec![0xA5; room])?.number, harness.judge(&wish, &vec![0; proposed])?.number];
        in_papers(format!("document 02, W-214, {shows}"), numbers, [planner, judge])?;
    }
    Ok(())
}
