//! Document 01's marked examples and the points settled beside it, with the answers written from document 01.

use super::{
    inputs::{lists::EMPTY, places::laid_out, samples::BAD_AFIS},
    table::memory::OUTPUT,
};
use crate::{
    compare::{disagree, Checked, Disagreement, Harness},
    ffi::{Group, Installed, Matched, Walked},
    hexadecimal::octets,
    second::{
        matches::choice::Flow,
        runs::run::{OLD, SKIP},
        table::calls::{TableAnswer, TableCall},
    },
};
use std::fmt::Debug;

/// The distinguisher 100:7 of the listing example.
pub const RD: &str = "0000006400000007";

/// The listing's 18 octets, and the text for them, which document 02, W-206, keeps for the old mode.
pub const LISTED: &str = "030E 0000006400000007 00 00 0A000001 0900";
pub const LISTED_TEXT: &str = "MVT list 1\n0 3 14\nstop 16 2\n";

/// AFI, group, number, class: P7 and P8.
pub const GROUPS: [(u16, &str, u32, u32); 6] = [
    (1, "E7FFFFFF", 0, 1),
    (1, "E9000000", 0, 1),
    (1, "DFFFFFFF", 15, 0),
    (1, "F0000000", 15, 0),
    (2, "FF3E0000 00000000 00000000 00000001", 0, 2),
    (2, "FF3E0001 00000000 00000000 00000001", 0, 1),
];

/// What it shows, AFI, octets with `RD` for the distinguisher, number.
pub const NLRIS: [(&str, u16, &str, u32); 33] = [
    ("P9: Length 14", 1, "030E RD 00 00 0A000001", 0),
    ("P9: Length 13", 1, "030D RD 00 00 0A0000", 3),
    ("P9: Length 13, an octet after it", 1, "030D RD 00 00 0A000001", 3),
    ("P10: source length 24", 1, "0316 RD 18 C00002 20 E8010101 0A000001 00", 4),
    ("P10: source length 128 under AFI 1", 1, "0316 RD 80 C0000201 20 E8010101 0A000001", 4),
    ("P11: type 7 with source length 0", 1, "0712 RD 0000FDE8 00 20 E8010101", 4),
    ("1: octets after the NLRI come last", 1, "020C RD 0000FDE8 FF", 3),
    ("1: WIDTH before octets after", 1, "030E RD 18 00 0A000001 FF", 4),
    ("1: KEY before octets after", 1, "0404 0A000001 FF", 5),
    ("2: SHORT before TYPE", 1, "0905 01020304", 1),
    ("2: no header", 1, "", 1),
    ("2: half a header", 1, "03", 1),
    ("3: body ends where a field begins", 1, "0308 RD", 3),
    ("3: no body", 1, "0300", 3),
    ("4: octets left over in type 2", 1, "020D RD 0000FDE8 01", 3),
    ("4: octets left over in type 5", 1, "0513 RD 20 C0000201 20 E8010101 01", 3),
    ("5: originator of 5 octets", 1, "010D RD 0A00000100", 3),
    ("5: IPv6 originator under AFI 1", 1, "0118 RD 20010DB8000000000000000000000001", 0),
    ("5: IPv4 originator under AFI 2", 2, "010C RD 0A000001", 0),
    ("6: bad length octet with nothing behind it", 1, "0309 RD 18", 4),
    ("6: bad group length with nothing behind it", 1, "030A RD 00 21", 4),
    ("6: missing length octet", 1, "0309 RD 00", 3),
    ("7: 5 octets after a key", 1, "0413 020C RD 0000FDE8 0A00000102", 3),
    ("7: a key and its originator", 1, "0412 020C RD 0000FDE8 0A000001", 0),
    ("8: key past the body", 1, "0410 020F RD 0000FDE8 0A00", 5),
    ("8: empty Leaf", 1, "0400", 5),
    ("8: key of one octet", 1, "0401 01", 5),
    ("9: key of type 5", 1, "0418 0512 RD 20 C0000201 20 E8010101 0A000001", 5),
    ("a wildcard key", 2, "0414 030E RD 00 00 0A000001 0A000002", 0),
    ("10: a group that is no multicast address", 1, "0316 RD 20 E8010101 20 0A000001 0A000001", 0),
    ("11: unknown type, Length 0", 1, "0900", 2),
    ("12: AFI 257", 257, "030E RD 00 00 0A000001", 10),
    ("FAMILY before SHORT", 0, "", 10),
];

/// What it shows, octets, number, label where it is read.
pub const ATTRIBUTES: [(&str, &str, u32, u32); 14] = [
    ("P12: label field 00 00 0F", "00 0B 00000F 01 0002 0A000001", 0, 0),
    ("P12: label field 00 00 10", "00 0B 000010 01 0002 0A000001", 0, 1),
    ("no tunnel", "01 00 000000", 0, 0),
    ("15: four octets of a bad type", "00 0C 0000", 1, 0),
    ("tunnel type 8", "00 08 000000", 6, 0),
    ("tunnel type 12", "00 0C 000000", 6, 0),
    ("no tunnel with an identifier", "00 00 000000 00", 7, 0),
    ("15: PIM addresses of two sizes", "00 03 000000 0102030405060708090A0B0C0D0E0F1011121314", 7, 0),
    ("FEC of IPv4, no opaque octets", "00 02 FFFFFF 06 0001 04 0A000001 0000", 0, 0xF_FFFF),
    ("FEC with octets after the opaque value", "00 02 000000 06 0001 04 0A000001 0001 0102", 7, 0),
    ("FEC with a short opaque value", "00 02 000000 06 0001 04 0A000001 0002 01", 7, 0),
    ("FEC of type 7 in a P2MP tunnel", "00 02 000000 07 0001 04 0A000001 0000", 7, 0),
    ("FEC of type 6 in an MP2MP tunnel", "00 07 000000 06 0001 04 0A000001 0000", 7, 0),
    ("FEC of family 1 with 16 octets", "00 07 000000 08 0001 10 00000000000000000000000000000000 0000", 7, 0),
];

/// The routes A to E of router 10.0.0.1, NLRI with `RD` for the distinguisher and attribute, no two attributes the same.
const ROUTES: [(&str, &str, &str); 5] = [
    ("A", "0316 RD 20 C0000201 20 E8010101 0A000001", "01 06 000010 0A000001"),
    ("B", "0312 RD 20 C0000201 00 0A000001", "00 0B 000020 01 0002 0A000001"),
    ("C", "0312 RD 00 20 EF010101 0A000001", "00 03 000030 0A000001 E8000001"),
    ("D", "030E RD 00 00 0A000001", "00 01 000040 0A000001 00000001 0A000001"),
    ("E", "0312 RD 00 20 E8090909 0A000001", "00 02 000050 06 0001 04 0A000001 0000"),
];

/// The order of their NLRIs, octet by octet: the Length field first, then wildcards before addresses.
pub const ORDER: [&str; 5] = ["D", "E", "C", "B", "A"];

/// What it shows, router, source, group, tier, route.
pub const FLOWS: [(&str, &str, &str, &str, u32, &str); 6] = [
    ("P1", "0A000001", "C0000201", "E8010101", 1, "A"),
    ("P2", "0A000001", "C0000201", "E8010102", 2, "B"),
    ("P3: C, not B", "0A000001", "C0000201", "EF010101", 3, "C"),
    ("P4", "0A000001", "C0000202", "E8010101", 4, "D"),
    ("P5: D, not E", "0A000001", "C0000202", "E8090909", 4, "D"),
    ("P6: another router", "0A000002", "C0000201", "E8010101", 0, ""),
];

/// What it shows, attribute, number, outcome of the install of a new route.
pub const LABELS: [(&str, &str, u32, u32); 2] = [
    ("P12: label field 00 00 0F", "00 0B 00000F 01 0002 0A000001", 9, 0),
    ("P12: label field 00 00 10", "00 0B 000010 01 0002 0A000001", 0, 1),
];

/// The NLRI and attribute of one of A to E; no octets where there is none of that name.
pub fn route(name: &str) -> (Vec<u8>, Vec<u8>) {
    let named = ROUTES.iter().find(|(known, _, _)| *known == name);
    named.map_or_else(Default::default, |(_, nlri, attribute)| (octets(&nlri.replace("RD", RD)), octets(attribute)))
}

/// The image of A to E in a table of six places, laid out from document 01.
pub fn table_image() -> Vec<u8> {
    let places = ORDER.map(|name| {
        let (nlri, attribute) = route(name);
        laid_out(&nlri, &attribute, 0)
    });
    [b"MVT\x00\x01\x01\x00\x05", &places.concat()[..], &[0; 128]].concat()
}

pub fn all(harness: &mut Harness) -> Checked {
    groups(harness)?;
    nlris(harness)?;
    attributes(harness)?;
    runs(harness)?;
    let listed = harness.second.listing(&[b"old"], &octets(LISTED));
    in_document("the listing's text", listed, LISTED_TEXT.to_string())
}

/// Checks an answer against document 01. That of a call is both decoders', which have been compared.
fn in_document<Answer: PartialEq + Debug>(shows: &str, answer: Answer, asked: Answer) -> Checked {
    in_papers(format!("document 01, {shows}"), answer, asked)
}

/// Checks an answer against the one that the papers ask.
pub fn in_papers<Answer: PartialEq + Debug>(shows: String, answer: Answer, asked: Answer) -> Checked {
    match answer == asked {
        true => Ok(()),
        false => disagree(shows, format!("{answer:?}"), format!("{asked:?}")),
    }
}

fn groups(harness: &mut Harness) -> Checked {
    for (afi, group, number, group_class) in GROUPS {
        in_document(group, harness.group_class(afi, EMPTY, &octets(group))?, Group { number, group_class })?;
    }
    Ok(())
}

fn nlris(harness: &mut Harness) -> Checked {
    for (shows, afi, text, number) in NLRIS {
        let nlri = octets(&text.replace("RD", RD));
        in_document(shows, harness.nlri_reading(afi, &nlri)?.number, number)?;
    }
    Ok(())
}

fn attributes(harness: &mut Harness) -> Checked {
    for (shows, text, number, label) in ATTRIBUTES {
        let answer = harness.attribute_read(&octets(text))?;
        in_document(shows, (answer.number, answer.label), (number, label))?;
    }
    Ok(())
}

/// The listing's run, the empty run and the bad AFIs.
fn runs(harness: &mut Harness) -> Checked {
    let listed = octets(LISTED);
    let answer = harness.walk(1, OLD, &listed)?;
    in_document("the listing's 18 octets", answer, Walked { number: 2, count: 1, offset: 16, skipped: 0 })?;
    harness.walk_by_steps(1, &listed)?;
    for (afi, mode) in [(1, OLD), (2, OLD), (1, SKIP), (2, SKIP)] {
        in_document("an empty run", harness.walk(afi, mode, &[])?, Walked::default())?;
    }
    for (afi, mode) in BAD_AFIS.into_iter().flat_map(|afi| [(afi, OLD), (afi, SKIP)]) {
        let refusal = Walked { number: 10, ..Default::default() };
        in_document("a bad AFI", harness.walk(afi, mode, &listed)?, refusal)?;
        in_document("a bad AFI, empty run", harness.walk(afi, mode, &[])?, refusal)?;
    }
    Ok(())
}

/// P1 to P6 and P12 with their whole answers, whatever the order of the installs.
pub fn tables(harness: &mut Harness) -> Checked {
    let mut names = ORDER;
    for _ in 0..names.len() {
        names.rotate_left(1);
        in_document("A to E installed", installed(harness, &names)?, table_image())?;
    }
    let image = table_image();
    flows(harness, &image)?;
    for (shows, attribute, number, outcome) in LABELS {
        let nlri = octets(&"030E RD 00 00 0A000002".replace("RD", RD));
        let answer = harness.table_call(&image, TableCall::Install { nlri: &nlri, attribute: &octets(attribute) })?;
        in_document(shows, answer, TableAnswer::Installed(Installed { number, outcome }))?;
    }
    Ok(())
}

/// The table after these routes are installed.
fn installed(harness: &mut Harness, names: &[&str]) -> Result<Vec<u8>, Disagreement> {
    let mut memory = vec![0xFF; 8 + 6 * 128];
    in_document("making a table", harness.make(1, &memory)?, 0)?;
    for name in names {
        memory = harness.table().to_vec();
        let (nlri, attribute) = route(name);
        let answer = harness.table_call(&memory, TableCall::Install { nlri: &nlri, attribute: &attribute })?;
        in_document(name, answer, TableAnswer::Installed(Installed { number: 0, outcome: 1 }))?;
    }
    Ok(harness.table().to_vec())
}

fn flows(harness: &mut Harness, image: &[u8]) -> Checked {
    for (shows, router, source, group, tier, name) in FLOWS {
        let [router, source, group] = [router, source, group].map(octets);
        let flow = Flow { prefixes: EMPTY, router: &router, source: &source, group: &group };
        let (nlri, attribute) = route(name);
        let [nlri_size, attribute_size] = [&nlri, &attribute].map(|octets| octets.len() as u32);
        let mut output = [nlri, attribute].concat();
        output.resize(OUTPUT.len(), OUTPUT[0]);
        let asked = TableAnswer::Matched(Matched { number: 0, tier, nlri_size, attribute_size }, output);
        in_document(shows, harness.table_call(image, TableCall::Match { flow, output: &OUTPUT })?, asked)?;
    }
    Ok(())
}
