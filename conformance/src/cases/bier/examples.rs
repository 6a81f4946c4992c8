//! Bit strings with the answers written from document 02, W-211, and RFC 8279.

use crate::{
    cases::{
        document::in_papers,
        inputs::lists::{list, Item},
    },
    compare::{Checked, Harness},
    ffi::Egress,
    hexadecimal::octets,
    second::bier::{
        packet::{BitString, Packet},
        string::STRING,
    },
};

pub fn all(harness: &mut Harness) -> Checked {
    for (example, afi) in EXAMPLES.iter().flat_map(|example| [(example, 1), (example, 2)]) {
        for more in [0, 1, 40] {
            let ([nlri, attribute], leaves) = (route_of(afi), leaves_of(afi, example.2));
            let packet = Packet { afi, nlri: &nlri, attribute: &attribute, set: example.1, leaves: &leaves };
            let answer = harness.bier_string(packet, &vec![FILL; STRING + more])?;
            in_papers(format!("document 02, W-211, {}", example.0), answer, asked_of(example, more))?;
        }
    }
    for refusal in &REFUSALS {
        let call = Call::of(refusal);
        let answer = harness.bier_string(call.packet(), &vec![FILL; call.room])?;
        in_papers(format!("document 02, W-211, {}", refusal.0), answer, call.refused(refusal.2))?;
    }
    Ok(())
}

/// What the output holds beforehand.
pub const FILL: u8 = 0xA5;

/// What it shows, the Set Identifier, the Leaves, the octets of the string that are not 0, and the egress routers told.
///
/// A Leaf is its BFR-id. It has the route's NLRI as its key, label 0, no flags, the route's sub-domain, 5, an originator and a BFR-prefix
/// of 10.0.0.2, but for what stands behind it: `w` a BFR-prefix of 16 octets, `l` label 1, `f` every flag, `o` and `O` another originator,
/// of 4 and of 16 octets, `s` sub-domain 4, `z` sub-domain 0, `e` ingress replication with the same octets, `t` RSVP-TE likewise, `n` no
/// tunnel; and for its key `d` the next distinguisher, `p` another originator, `*` wildcards, `i` an Intra-AS I-PMSI route.
///
/// An octet of the string is its number, from 0, and its value in hexadecimal.
pub type Example = (&'static str, u8, &'static str, &'static str, u32);

pub const EXAMPLES: [Example; 54] = [
    ("no Leaves", 0, "", "", 0),
    ("no Leaves, the last set", 255, "", "", 0),
    ("BFR-id 1 is position 1, the lowest bit of the last octet", 0, "1", "31:01", 1),
    ("position 2", 0, "2", "31:02", 1),
    ("position 8", 0, "8", "31:80", 1),
    ("position 9", 0, "9", "30:01", 1),
    ("position 16", 0, "16", "30:80", 1),
    ("position 17", 0, "17", "29:01", 1),
    ("position 64", 0, "64", "24:80", 1),
    ("position 65", 0, "65", "23:01", 1),
    ("position 128", 0, "128", "16:80", 1),
    ("position 129", 0, "129", "15:01", 1),
    ("position 248", 0, "248", "1:80", 1),
    ("position 249", 0, "249", "0:01", 1),
    ("position 255", 0, "255", "0:40", 1),
    ("BFR-id 256 is position 256, the highest bit of the first octet", 0, "256", "0:80", 1),
    ("BFR-id 256 is not of set 1", 1, "256", "", 0),
    ("BFR-id 257 is not of set 0", 0, "257", "", 0),
    ("BFR-id 257 is position 1 of set 1", 1, "257", "31:01", 1),
    ("BFR-id 512 is position 256 of set 1", 1, "512", "0:80", 1),
    ("BFR-id 513 is position 1 of set 2", 2, "513", "31:01", 1),
    ("BFR-id 32,768 is position 256 of set 127", 127, "32768", "0:80", 1),
    ("BFR-id 32,769 is position 1 of set 128", 128, "32769", "31:01", 1),
    ("BFR-id 65,280 is position 256 of set 254", 254, "65280", "0:80", 1),
    ("BFR-id 65,281 is position 1 of set 255", 255, "65281", "31:01", 1),
    ("BFR-id 65,535 is position 255 of set 255", 255, "65535", "0:40", 1),
    ("BFR-id 65,535 is not of set 0", 0, "65535", "", 0),
    ("BFR-id 0 does not count", 0, "0", "", 0),
    ("BFR-id 0 does not count in the last set", 255, "0", "", 0),
    ("the octets of a BFR-id, high and low", 1, "258", "31:02", 1),
    ("the same the other way round", 2, "513 258", "31:01", 1),
    ("four routers", 0, "1 2 3 256", "31:07 0:80", 4),
    ("in any order", 0, "256 3 1 2", "31:07 0:80", 4),
    ("eight of one octet", 0, "24 17 23 18 22 19 21 20", "29:FF", 8),
    ("one router of each of three sets", 1, "1 257 513", "31:01", 1),
    ("a position in three sets", 2, "44 300 556", "26:08", 1),
    ("two Leaves of one BFR-id are one router", 0, "7 7", "31:40", 1),
    ("of other originators too", 0, "7 7o 7O", "31:40", 1),
    ("and with another one between them", 0, "7 9 7o", "31:40 30:01", 2),
    ("three of one BFR-id, and one of another set", 0, "7 7o 7w 300", "31:40", 1),
    ("a BFR-prefix of the other size", 0, "1w 2", "31:03", 2),
    ("a label, and flags", 0, "1l 2f 3lf", "31:07", 3),
    ("other originators", 0, "1o 2O", "31:03", 2),
    ("another sub-domain", 0, "1s 2", "31:02", 1),
    ("sub-domain 0", 0, "1z 2", "31:02", 1),
    ("no other sub-domain counts", 0, "1s 2z", "", 0),
    ("another tunnel", 0, "1e 2t 3n 4", "31:08", 1),
    ("no BIER tunnel", 0, "1e 2t 3n", "", 0),
    ("a key of another distinguisher", 0, "1d 2", "31:02", 1),
    ("a key of another originator", 0, "1p 2", "31:02", 1),
    ("a key of wildcards", 0, "1* 2", "31:02", 1),
    ("a key of another type", 0, "1i 2", "31:02", 1),
    ("of one BFR-id one counts", 0, "1s 1d 1 1e", "31:01", 1),
    ("all of it", 1, "0 1 257 258s 259d 260* 257o 512wl 513 261n 300", "31:01 26:08 0:80", 3),
];

/// The NLRI and the attribute of the route, (192.0.2.1, 232.1.1.1) or the like, by the AFI: sub-domain 5, and its own BFR-id is 9.
pub fn route_of(afi: u16) -> [Vec<u8>; 2] {
    let texts = match afi {
        1 => ["0316 0000006400000007 20 C0000201 20 E8010101 0A000001", "01 0B 000010 05 0009 0A000001"],
        _ => [
            "033A 0000006400000007 80 20010DB8000000000000000000000001 80 FF3E0000000000000000000000000001
             20010DB8000000000000000000000002",
            "01 0B 000010 05 0009 20010DB8000000000000000000000002",
        ],
    };
    texts.map(octets)
}

/// A list of the Leaves of an example.
pub fn leaves_of(afi: u16, words: &str) -> Vec<u8> {
    list(&words.split_whitespace().map(|word| leaf_named(afi, word)).collect::<Vec<Item>>())
}

/// What an example must leave, the output having so many octets more than it needs.
pub fn asked_of((_, _, _, string, routers): &Example, more: usize) -> BitString {
    let mut output = [vec![0; 32], vec![FILL; more]].concat();
    for octet in string.split_whitespace() {
        let (at, value) = octet.split_once(':').expect("a number and a value");
        output[at.parse::<usize>().expect("a number")] = octets(value)[0];
    }
    BitString { answer: Egress { number: 0, routers: *routers }, output }
}

fn leaf_named(afi: u16, word: &str) -> Item {
    let (id, marks) = word.split_at(word.find(|character: char| !character.is_ascii_digit()).unwrap_or(word.len()));
    let has = |mark: char| marks.contains(mark);
    let [mut key, _] = route_of(afi);
    let size = key.len();
    match () {
        _ if has('d') => key[9] += 1,
        _ if has('p') => key[size - 1] += 7,
        _ if has('*') => key = octets("030E 0000006400000007 00 00 0A000001"),
        _ if has('i') => key = octets("010C 0000006400000007 0A000001"),
        _ => {}
    }
    let originator = match () {
        _ if has('o') => octets("0A000003"),
        _ if has('O') => octets("20010DB8000000000000000000000003"),
        _ => octets("0A000002"),
    };
    let body = [key, originator].concat();
    let sub_domain = if has('s') {
        4
    } else if has('z') {
        0
    } else {
        5
    };
    let [high, low] = id.parse::<u16>().expect("a BFR-id").to_be_bytes();
    let label = if has('l') { 16 } else { 0 };
    let flags = if has('f') { 0xFF } else { 0 };
    let attribute =
        |tunnel: u8, prefix: &str| [&[flags, tunnel, 0, 0, label, sub_domain, high, low][..], &octets(prefix)].concat();
    let attribute = match () {
        _ if has('w') => attribute(11, "20010DB8000000000000000000000002"),
        _ if has('e') => attribute(6, "0A"),
        _ if has('t') => attribute(1, "0A0000020000000001"),
        _ if has('n') => octets("00 00 000000"),
        _ => attribute(11, "0A000002"),
    };
    [[&[4, body.len() as u8], &body[..]].concat(), attribute]
}

// ---- refusals

/// What a refusal has in the place of something good: of AFI 1 the route above, set 0, the list of the Leaf 1, and an output of 32 octets.
pub enum Bad {
    Afi(u16),
    Nlri(&'static str),
    Attribute(&'static str),
    /// The list as it is lent.
    List(&'static str),
    /// A list of these Leaves, each of them a BFR-id as above, or an NLRI and an attribute, of which a `=` is good.
    Leaves(&'static [[&'static str; 2]]),
    /// A list of so many good Leaves.
    Count(usize),
    Room(usize),
}

use Bad::{Afi, Attribute, Count, Leaves, List, Nlri, Room};

const LABEL_0: &str = "01 0B 00000F 05 0009 0A000001";
const REPLICATION: &str = "00 06 000010 0A000001";
const ACTIVE: &str = "0512 0000006400000007 20 C0000201 20 EF010101";
const DISCARDED: &str = "0512 0000006400000007 20 C0000201 20 E8010101";
const MLDP_LEAF: &str = "4424 431E 0000006400000007 06 0001 04 0A000001 0008 01 0005 0102030405 0A000001 0A000002";
const TOO_DEEP: &str =
    "4763 0000006400000007 0000FDE8 06 0001 04 0A000001 004D 07 004A 06 0001 04 0A000001 0040 07 003D 06 0001 04 \
                        0A000001 0033 07 0030 06 0001 04 0A000001 0026 07 0023 06 0001 04 0A000001 0019 \
                        01 0016 00000000000000000000000000000000000000000000";

/// What it shows, what is bad, and the number.
pub type Refusal = (&'static str, &'static [Bad], u32);

pub const REFUSALS: [Refusal; 84] = [
    ("AFI 0", &[Afi(0)], 10),
    ("AFI 3", &[Afi(3)], 10),
    ("AFI 257", &[Afi(257)], 10),
    ("AFI 2: the addresses are of the other family", &[Afi(2)], 4),
    ("no NLRI", &[Nlri("")], 1),
    ("half a header", &[Nlri("03")], 1),
    ("a Length past the octets", &[Nlri("0316 00")], 1),
    ("an unknown type", &[Nlri("0900")], 2),
    ("a body that ends early", &[Nlri("0304 00000064")], 3),
    ("an octet after the NLRI", &[Nlri("030E 0000006400000007 00 00 0A000001 00")], 3),
    ("a source of 24 bits", &[Nlri("0316 0000006400000007 18 C0000201 20 E8010101 0A000001")], 4),
    ("a Leaf without a key", &[Nlri("0404 0A000001")], 5),
    ("a bad FEC element", &[Nlri("4316 0000006400000007 05 0001 04 0A000001 0000 0A000001")], 7),
    ("FEC elements five deep", &[Nlri(TOO_DEEP)], 17),
    ("a Source Active route for an SSM group", &[Nlri(DISCARDED)], 19),
    ("an octet after it", &[Nlri("0512 0000006400000007 20 C0000201 20 E8010101 00")], 3),
    ("type 1", &[Nlri("010C 0000006400000007 0A000001")], 12),
    ("type 2", &[Nlri("020C 0000006400000007 0000FDE8")], 12),
    ("type 4", &[Nlri("0414 030E 0000006400000007 00 00 0A000001 0A000002")], 12),
    ("type 5", &[Nlri(ACTIVE)], 12),
    ("type 0x43", &[Nlri("4316 0000006400000007 06 0001 04 0A000001 0000 0A000001")], 12),
    ("no attribute", &[Attribute("")], 1),
    ("an attribute of four octets", &[Attribute("01 0B 0000")], 1),
    ("an unknown tunnel type", &[Attribute("01 08 000010")], 6),
    ("BIER with an identifier of six octets", &[Attribute("01 0B 000010 05 0009 0A0000")], 7),
    ("BIER with label 0", &[Attribute(LABEL_0)], 9),
    ("ingress replication", &[Attribute(REPLICATION)], 6),
    ("ingress replication with label 0", &[Attribute("00 06 000000 0A000001")], 6),
    ("no tunnel", &[Attribute("01 00 000000")], 6),
    ("1,025 Leaves", &[Count(1_025)], 8),
    ("1,025 told, and none there", &[List("0401")], 8),
    ("65,535 told, and none there", &[List("FFFF")], 8),
    ("a list of no octets", &[List("")], 1),
    ("half a count", &[List("04")], 1),
    ("1,024 told, and none there", &[List("0400")], 1),
    ("one told, and none there", &[List("0001")], 1),
    ("the list ends inside a size", &[List("0001 00")], 1),
    ("the list ends inside an NLRI", &[List("0001 0002 09")], 1),
    ("the list ends before an attribute", &[List("0001 0002 0900")], 1),
    ("the list ends inside an attribute", &[List("0001 0002 0900 0001")], 1),
    ("a Leaf's NLRI of no octets", &[Leaves(&[["", "="]])], 1),
    ("a Leaf's Length past its octets", &[Leaves(&[["0404 0A", "="]])], 1),
    ("a Leaf of an unknown type", &[Leaves(&[["0900", "="]])], 2),
    ("a Leaf that ends inside its originator", &[Leaves(&[["0411 030E 0000006400000007 00 00 0A000001 0A", "="]])], 3),
    ("an octet after a Leaf", &[Leaves(&[["0414 030E 0000006400000007 00 00 0A000001 0A000002 00", "="]])], 3),
    ("a join of the other family", &[Leaves(&[["070D 0000006400000007 0000FDE8 80", "="]])], 4),
    ("a Leaf whose key is bad", &[Leaves(&[["0404 0A000001", "="]])], 5),
    (
        "a Leaf whose key is a Leaf",
        &[Leaves(&[["041A 0414 030E 0000006400000007 00 00 0A000001 0A000002 0A000002", "="]])],
        5,
    ),
    ("a listed NLRI with a bad FEC element", &[Leaves(&[["470D 0000006400000007 0000FDE8 09", "="]])], 7),
    ("a listed NLRI with FEC elements five deep", &[Leaves(&[[TOO_DEEP, "="]])], 17),
    ("a listed Source Active route for an SSM group", &[Leaves(&[[DISCARDED, "="]])], 19),
    ("a listed Source Active route", &[Leaves(&[[ACTIVE, "="]])], 12),
    ("the route itself as a Leaf", &[Leaves(&[["0316 0000006400000007 20 C0000201 20 E8010101 0A000001", "="]])], 12),
    ("type 1 as a Leaf", &[Leaves(&[["010C 0000006400000007 0A000001", "="]])], 12),
    ("type 7 as a Leaf", &[Leaves(&[["0716 0000006400000007 0000FDE8 20 C0000201 20 E8010101", "="]])], 12),
    ("a Leaf for mLDP", &[Leaves(&[[MLDP_LEAF, "="]])], 12),
    ("a Leaf without an attribute", &[Leaves(&[["=", ""]])], 1),
    ("a Leaf's attribute of four octets", &[Leaves(&[["=", "00 0B 0000"]])], 1),
    ("a Leaf's unknown tunnel type", &[Leaves(&[["=", "00 0C 000000 05 0001 0A000002"]])], 6),
    ("a Leaf's identifier of eight octets", &[Leaves(&[["=", "00 0B 000000 05 0001 0A00000200"]])], 7),
    (
        "the same where the key is another one",
        &[Leaves(&[["0414 030E 0000006400000007 00 00 0A000001 0A000002", "00 00 000000 00"]])],
        7,
    ),
    ("the second of two Leaves", &[Leaves(&[["1", ""], ["=", ""]])], 1),
    ("the first of two bad Leaves: its attribute", &[Leaves(&[["=", "00 08 000000"], ["0900", "="]])], 6),
    ("the first of two bad Leaves: its NLRI", &[Leaves(&[["0900", "="], ["=", "00 08 000000"]])], 2),
    ("the first of two bad Leaves: its type", &[Leaves(&[[ACTIVE, "="], ["", "="]])], 12),
    ("of one Leaf the NLRI before the attribute", &[Leaves(&[["0900", ""]])], 2),
    ("of one Leaf the type before the attribute", &[Leaves(&[[ACTIVE, ""]])], 12),
    ("an output of 31 octets", &[Room(31)], 16),
    ("no output", &[Room(0)], 16),
    ("no output, and no Leaves", &[List("0000"), Room(0)], 16),
    ("31 octets, and no Leaf that counts", &[Leaves(&[["0", ""], ["1e", ""]]), Room(31)], 16),
    ("FAMILY before all others", &[Afi(3), Nlri(""), Attribute(""), List(""), Room(0)], 10),
    ("the NLRI before the attribute", &[Nlri("0900"), Attribute("")], 2),
    ("KIND before the attribute", &[Nlri(ACTIVE), Attribute("")], 12),
    ("the attribute before the list", &[Attribute("01 08 000010"), List("FFFF")], 6),
    ("LABEL before LONG", &[Attribute(LABEL_0), List("FFFF")], 9),
    ("LABEL before SHORT", &[Attribute(LABEL_0), List("")], 9),
    ("TUNNEL before LONG", &[Attribute(REPLICATION), List("FFFF")], 6),
    ("TUNNEL before SHORT", &[Attribute(REPLICATION), List("")], 6),
    ("TUNNEL before a Leaf", &[Attribute(REPLICATION), Leaves(&[["0900", "="]])], 6),
    ("TUNNEL before SPACE", &[Attribute(REPLICATION), Room(0)], 6),
    ("SHORT before a Leaf", &[List("0002 0002 0900 0000")], 1),
    ("SHORT before SPACE", &[List(""), Room(0)], 1),
    ("a Leaf before SPACE", &[Leaves(&[["0900", "="]]), Room(31)], 2),
];

/// A call that is refused.
pub struct Call {
    afi: u16,
    nlri: Vec<u8>,
    attribute: Vec<u8>,
    leaves: Vec<u8>,
    pub room: usize,
}

impl Call {
    pub fn of((_, bad, _): &Refusal) -> Self {
        let [nlri, attribute] = route_of(1);
        let mut call = Call { afi: 1, nlri, attribute, leaves: leaves_of(1, "1"), room: STRING };
        for bad in *bad {
            match bad {
                Afi(afi) => call.afi = *afi,
                Nlri(text) => call.nlri = octets(text),
                Attribute(text) => call.attribute = octets(text),
                List(text) => call.leaves = octets(text),
                Leaves(items) => call.leaves = list(&items.iter().map(item_of).collect::<Vec<Item>>()),
                Count(count) => call.leaves = list(&vec![leaf_named(1, "1"); *count]),
                Room(room) => call.room = *room,
            }
        }
        call
    }

    pub fn packet(&self) -> Packet<'_> {
        Packet { afi: self.afi, nlri: &self.nlri, attribute: &self.attribute, set: 0, leaves: &self.leaves }
    }

    /// What it must answer, and leave.
    pub fn refused(&self, number: u32) -> BitString {
        BitString { answer: Egress { number, routers: 0 }, output: vec![FILL; self.room] }
    }
}

fn item_of([nlri, attribute]: &[&'static str; 2]) -> Item {
    if nlri.chars().next().is_some_and(|first| first != '=') && nlri.len() <= 2 {
        return leaf_named(1, nlri);
    }
    let good = leaf_named(1, "1");
    let [nlri_of_good, attribute_of_good] = good;
    [
        if *nlri == "=" { nlri_of_good } else { octets(nlri) },
        if *attribute == "=" { attribute_of_good } else { octets(attribute) },
    ]
}
