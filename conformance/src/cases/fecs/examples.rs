//! The route types of mLDP customers, and FEC elements that hold others, with the answers written from document 02, W-207.

use crate::{
    cases::{
        document::RD,
        inputs::samples::{fec, holding},
    },
    hexadecimal::octets,
};

/// What it shows, AFI, route type, body, number.
pub struct Example {
    pub shows: &'static str,
    pub afi: u16,
    pub route_type: u8,
    pub body: Vec<u8>,
    pub number: u32,
}

impl Example {
    pub fn nlri(&self) -> Vec<u8> {
        [&[self.route_type, self.body.len() as u8], &self.body[..]].concat()
    }
}

/// The listing's octets and text: route types in decimal.
pub const LISTED: &str = "4316 0000006400000007 06 0001 04 0A000001 0000 0A000002 \
    4716 0000006400000007 0000FDE8 08 0001 04 0A000001 0000 \
    441C 4316 0000006400000007 06 0001 04 0A000001 0000 0A000002 0A000003";
pub const LISTED_TEXT: &str = "MVT list 1\n0 67 22\n24 71 22\n48 68 28\nend 78 0 0\n";

/// IPv4 elements one inside the other, by opaque type 7; the innermost has this opaque value.
fn deep(depth: usize, innermost: &[u8]) -> Vec<u8> {
    (1..depth).fold(fec(6, 1, innermost), |element, _| fec(6, 1, &holding(7, &element)))
}

fn distinguisher() -> Vec<u8> {
    octets(RD)
}

/// Bodies of each route type.
pub(super) fn s_pmsi(element: &[u8]) -> Vec<u8> {
    [&distinguisher()[..], element, &[10, 0, 0, 1]].concat()
}

fn leaf(key_type: u8, key: &[u8]) -> Vec<u8> {
    [&[key_type, key.len() as u8], key, &[10, 0, 0, 2]].concat()
}

pub(super) fn join(element: &[u8]) -> Vec<u8> {
    [&distinguisher()[..], &[0, 0, 0xFD, 0xE8], element].concat()
}

/// The octets without the last few.
fn cut(octets: &[u8], less: usize) -> Vec<u8> {
    octets[..octets.len() - less].to_vec()
}

/// The octets with others in place of the last ones.
fn ending(octets: &[u8], last: &[u8]) -> Vec<u8> {
    [&octets[..octets.len() - last.len()], last].concat()
}

type Row = (&'static str, u16, u8, Vec<u8>, u32);

/// A row of route type 0x47 with this element.
fn joins(shows: &'static str, element: &[u8], number: u32) -> Row {
    (shows, 1, 0x47, join(element), number)
}

pub fn examples() -> Vec<Example> {
    let parts = [route_types(), outermost(), cut_bodies(), opaque_values(), held(), depths(), surroundings(), keys()];
    let example = |(shows, afi, route_type, body, number)| Example { shows, afi, route_type, body, number };
    parts.into_iter().flatten().map(example).collect()
}

/// The route types, and those beside them.
fn route_types() -> Vec<Row> {
    let one = fec(6, 1, &[]);
    vec![
        ("0x43", 1, 0x43, s_pmsi(&one), 0),
        ("0x44", 1, 0x44, leaf(0x43, &s_pmsi(&one)), 0),
        ("0x47", 1, 0x47, join(&one), 0),
        ("0x43, 16-octet originator", 1, 0x43, [&s_pmsi(&one)[..], &[0; 12]].concat(), 0),
        ("0x43, AFI 2", 2, 0x43, s_pmsi(&fec(7, 2, &[])), 0),
        ("0x47, AFI 2", 2, 0x47, join(&fec(8, 2, &[1, 0, 0])), 0),
        ("0x41", 1, 0x41, s_pmsi(&one), 2),
        ("0x42", 1, 0x42, join(&one), 2),
        ("0x45", 1, 0x45, s_pmsi(&one), 2),
        ("0x46", 1, 0x46, join(&one), 2),
        ("0xC3", 1, 0xC3, s_pmsi(&one), 2),
    ]
}

/// The fields of the outermost element.
fn outermost() -> Vec<Row> {
    let one = fec(6, 1, &[]);
    vec![
        ("a root of the other family", 1, 0x43, s_pmsi(&fec(6, 2, &[])), 7),
        ("a root of the other family, AFI 2", 2, 0x47, join(&one), 7),
        ("a family of several topologies", 1, 0x47, join(&[6, 0, 29, 4, 10, 0, 0, 1, 0, 0]), 7),
        ("a family's high octet", 1, 0x47, join(&[6, 1, 1, 4, 10, 0, 0, 1, 0, 0]), 7),
        joins("FEC type 5", &fec(5, 1, &[]), 7),
        joins("FEC type 7", &fec(7, 1, &[]), 0),
        joins("FEC type 8", &fec(8, 1, &[]), 0),
        joins("FEC type 9", &fec(9, 1, &[]), 7),
        ("wildcards", 1, 0x43, [&distinguisher()[..], &[0, 0, 10, 0, 0, 1]].concat(), 7),
    ]
}

/// Bodies that end before the element does.
fn cut_bodies() -> Vec<Row> {
    let one = fec(6, 1, &[]);
    vec![
        ("no FEC", 1, 0x47, join(&[]), 3),
        ("the body ends in the distinguisher", 1, 0x43, vec![0; 7], 3),
        ("the body ends in the source AS", 1, 0x47, vec![6; 11], 3),
        joins("the body ends behind the type", &one[..1], 3),
        joins("the body ends in the family", &one[..2], 3),
        joins("the body ends in a family that is wrong", &[6, 9], 3),
        joins("the body ends behind the family", &one[..3], 3),
        joins("a wrong family at the body's end", &[6, 0, 2], 7),
        joins("a wrong address length at the body's end", &[6, 0, 1, 16], 7),
        joins("the body ends in the root", &one[..6], 3),
        joins("the body ends in the opaque length", &one[..9], 3),
        joins("an opaque length past the body", &ending(&one, &[0, 1]), 3),
        joins("the same before a bad content", &[&ending(&one, &[0, 4])[..], &[7, 0, 9]].concat(), 3),
        ("an opaque length past 0x43's body", 1, 0x43, s_pmsi(&ending(&one, &[1, 0])), 3),
    ]
}

/// What an opaque value opens with.
fn opaque_values() -> Vec<Row> {
    let one = fec(6, 1, &[]);
    vec![
        joins("other openings are kept", &fec(6, 1, &[1, 0, 4, 1, 2, 3, 4]), 0),
        joins("opening 6", &fec(6, 1, &[6]), 0),
        joins("opening 9", &fec(6, 1, &[9, 0, 200]), 0),
        joins("type 7 alone", &fec(6, 1, &[7]), 7),
        joins("type 8 alone", &fec(6, 1, &[8]), 7),
        joins("half a length", &fec(6, 1, &[7, 0]), 7),
        joins("a length of 0", &fec(6, 1, &[7, 0, 0]), 7),
        joins("a length past the opaque value", &fec(6, 1, &[7, 0, 1]), 7),
        joins("octets after what is held", &fec(6, 1, &[&holding(7, &one)[..], &[0]].concat()), 7),
        joins("no distinguisher in type 8", &fec(6, 1, &[&[8, 0, 10], &one[..]].concat()), 7),
        joins("a distinguisher in type 7", &fec(6, 1, &[&[7, 0, 18], &distinguisher()[..], &one].concat()), 7),
        joins("half a distinguisher", &fec(6, 1, &[8, 0, 4, 0, 0, 0, 0]), 7),
    ]
}

/// An element in another.
fn held() -> Vec<Row> {
    let one = fec(6, 1, &[]);
    vec![
        joins("two deep", &deep(2, &[]), 0),
        joins("two deep, type 8", &fec(6, 1, &holding(8, &one)), 0),
        joins("an inner root of the other family", &fec(6, 1, &holding(8, &fec(6, 2, &[]))), 0),
        joins("an inner FEC of another type", &fec(6, 1, &holding(7, &fec(8, 1, &[]))), 0),
        joins("an inner FEC of type 5", &fec(6, 1, &holding(7, &fec(5, 1, &[]))), 7),
        joins("an inner FEC that is cut", &fec(6, 1, &holding(7, &one[..9])), 7),
        joins("an inner FEC whose root is cut", &fec(6, 1, &holding(8, &one[..6])), 7),
        joins("an inner opaque length past the rest", &fec(6, 1, &holding(7, &ending(&one, &[0, 1]))), 7),
        joins("octets after an inner FEC", &fec(6, 1, &holding(7, &[&one[..], &[0]].concat())), 7),
    ]
}

/// Elements three deep and more.
fn depths() -> Vec<Row> {
    vec![
        joins("three deep", &deep(3, &[]), 0),
        joins("four deep", &deep(4, &[]), 0),
        joins("four deep, other octets in the fourth", &deep(4, &[1, 2, 3]), 0),
        joins("five deep", &deep(5, &[]), 17),
        joins("type 7 alone in the fourth", &deep(4, &[7]), 17),
        joins("type 8 and junk in the fourth", &deep(4, &[8, 255, 255, 1]), 17),
        joins("type 7 alone in the third", &deep(3, &[7]), 7),
        joins("a bad fifth", &deep(4, &holding(7, &fec(5, 1, &[]))), 17),
        joins("six deep", &deep(6, &[]), 17),
        joins("IDENT before a FEC too many", &fec(6, 1, &holding(7, &[&deep(4, &[])[..], &[0]].concat())), 7),
        ("0x43, five deep", 1, 0x43, s_pmsi(&deep(5, &[])), 17),
    ]
}

/// What stands behind the element.
fn surroundings() -> Vec<Row> {
    let one = fec(6, 1, &[]);
    vec![
        ("no originator", 1, 0x43, cut(&s_pmsi(&one), 4), 3),
        ("an originator of 5 octets", 1, 0x43, [&s_pmsi(&one)[..], &[0]].concat(), 3),
        ("an octet after the FEC", 1, 0x47, [&join(&one)[..], &[0]].concat(), 3),
        ("IDENT before what follows", 1, 0x43, cut(&s_pmsi(&fec(6, 1, &[7])), 1), 7),
        ("DEEP before what follows", 1, 0x47, [&join(&deep(5, &[]))[..], &[0]].concat(), 17),
    ]
}

/// Keys, and a bad AFI.
fn keys() -> Vec<Row> {
    let one = fec(6, 1, &[]);
    vec![
        ("four deep in a key", 1, 0x44, leaf(0x43, &s_pmsi(&deep(4, &[]))), 0),
        ("DEEP in a key", 1, 0x44, leaf(0x43, &s_pmsi(&deep(5, &[]))), 5),
        ("IDENT in a key", 1, 0x44, leaf(0x43, &s_pmsi(&fec(6, 2, &[]))), 5),
        ("LENGTH in a key", 1, 0x44, leaf(0x43, &cut(&s_pmsi(&one), 1)), 5),
        ("a type 3 key", 1, 0x44, leaf(3, &[&distinguisher()[..], &[0, 0, 10, 0, 0, 1]].concat()), 5),
        ("a type 1 key", 1, 0x44, leaf(1, &[&distinguisher()[..], &[10, 0, 0, 1]].concat()), 5),
        ("a 0x47 key", 1, 0x44, leaf(0x47, &join(&one)), 5),
        ("a 0x44 key", 1, 0x44, leaf(0x44, &leaf(0x43, &s_pmsi(&one))), 5),
        ("no key", 1, 0x44, vec![], 5),
        ("5 octets after a key", 1, 0x44, [&leaf(0x43, &s_pmsi(&one))[..], &[0]].concat(), 3),
        ("a 0x43 key of type 4", 1, 4, leaf(0x43, &s_pmsi(&one)), 5),
        ("a bad AFI", 3, 0x43, s_pmsi(&one), 10),
    ]
}
