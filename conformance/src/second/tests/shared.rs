//! Lists taken apart, and matches for shared trees with answers written from the papers.

use crate::{
    cases::{document::table_image, shared::examples::EXAMPLES},
    ffi::{Matched, SharedTree},
    hexadecimal::octets,
    second::{
        groups::prefixes::NO_PREFIXES,
        lists::List,
        matches::shared::Reception,
        table::{
            calls::{TableAnswer, TableCall},
            memory::Table,
        },
        Second,
    },
};

/// The count, each item's fields, and whether the list is whole.
type Parts<'a> = (usize, &'a [[&'a [u8]; 2]], bool);

#[test]
fn lists() {
    let rows: [(&str, Parts); 13] = [
        ("", (0, &[], false)),
        ("00", (0, &[], false)),
        ("02", (0, &[], false)),
        ("0000", (0, &[], true)),
        ("0000 0001", (0, &[], true)),
        ("0001", (1, &[], false)),
        ("0001 0000 0000", (1, &[[&[], &[]]], true)),
        ("0001 0001 0A 0000", (1, &[[&[10], &[]]], true)),
        ("0001 0001 0A 0002 0B0C FF", (1, &[[&[10], &[11, 12]]], true)),
        ("0001 0001 0A 0002 0B", (1, &[], false)),
        ("0001 0001 0A 00", (1, &[], false)),
        ("0002 0001 0A 0000 0001 0B", (2, &[[&[10], &[]]], false)),
        ("0100 0000 0000", (256, &[[&[], &[]]], false)),
    ];
    for (text, (count, items, whole)) in rows {
        let octets = octets(text);
        let expected = List { count, items: items.to_vec(), whole };
        assert_eq!(Second::sound().list(&octets), expected, "{text}");
    }
}

/// A field of more octets than one octet can say, and items of other numbers of fields.
#[test]
fn fields_of_lists() {
    let long = [&[0, 1, 1, 4][..], &[7; 260]].concat();
    let list: List<1> = Second::sound().list(&long);
    assert_eq!((list.count, list.items, list.whole), (1, vec![[&[7; 260][..]]], true));
    let cut: List<1> = Second::sound().list(&long[..263]);
    assert_eq!((cut.count, cut.items, cut.whole), (1, vec![], false));
    let three: List<3> = Second::sound().list(&[0, 1, 0, 1, 5, 0, 0, 0, 1, 6]);
    assert_eq!((three.items, three.whole), (vec![[&[5][..], &[], &[6]]], true));
}

#[test]
fn written_examples() {
    let second = Second::sound();
    let table = second.table(&table_image()).expect("a sound table");
    for example in &EXAMPLES {
        let answer = example.ask(|call| second.on_table(&mut table.clone(), call));
        assert_eq!(answer, example.asked(), "{}", example.shows);
    }
}

/// TABLE before everything else.
#[test]
fn no_table() {
    let (router, group, facts) = (&[][..], &[][..], SharedTree::default());
    let reception = Reception { prefixes: NO_PREFIXES, router, group, facts, source_actives: &[1, 1], states: &[] };
    let (answer, _) = Second::sound().on_memory(&[], &TableCall::MatchShared { reception, output: &[] });
    assert_eq!(answer, TableAnswer::Matched(Matched { number: 11, ..Default::default() }, vec![]));
}

/// The lowest distinguisher, compared as eight octets, of the PE's own routes; a (C-*,C-G) route of a higher one comes
/// before a (C-*,C-*) route.
#[test]
fn ties() {
    let second = Second::sound();
    let mut table = Table::new(2, 5);
    let group = octets("FF0E0000000000000000000000000001");
    let [lowest, higher, other_router, wide] = [
        "031E 0000006400000007 00 80 FF0E0000000000000000000000000001 0A000001",
        "031E 8000000000000000 00 80 FF0E0000000000000000000000000001 0A000001",
        "031E 0000000000000001 00 80 FF0E0000000000000000000000000001 0A000002",
        "032A 0000000000000001 00 80 FF0E0000000000000000000000000001 0A000001000000000000000000000000",
    ]
    .map(octets);
    let any = octets("030E 0000000000000000 00 00 0A000001");
    for nlri in [&higher, &other_router, &lowest, &any, &wide] {
        table.routes.insert(nlri.clone(), octets("00 06 000000 0A000001"));
    }
    let facts = SharedTree { bidirectional: 7, ..Default::default() };
    let mut tier_and_route = |router: &[u8], group: &[u8]| {
        let (prefixes, source_actives, states) = (NO_PREFIXES, &[0, 0], &[0, 0]);
        let reception = Reception { prefixes, router, group, facts, source_actives, states };
        match second.on_table(&mut table, &TableCall::MatchShared { reception, output: &[0; 124] }) {
            TableAnswer::Matched(matched, output) => (matched.tier, output[..matched.nlri_size as usize].to_vec()),
            other => panic!("{other:?}"),
        }
    };
    assert_eq!(tier_and_route(&[10, 0, 0, 1], &group), (3, lowest));
    assert_eq!(tier_and_route(&[10, 0, 0, 1], &octets("FF0E0000000000000000000000000002")), (4, any));
    assert_eq!(tier_and_route(&octets("0A000001000000000000000000000000"), &group), (3, wide));
    assert_eq!(tier_and_route(&[10, 0, 0, 3], &group), (0, vec![]));
    assert_eq!(tier_and_route(&[10, 0, 0, 1], &octets("FF3E0000000000000000000000000001")), (0, vec![]));
}

/// A call belongs to the PE asked, if its address has 4 or 16 octets, whatever else is wrong with it.
#[test]
fn routers_of_calls() {
    let asked = |router| {
        let facts = SharedTree::default();
        let reception = Reception { prefixes: &[], router, group: &[], facts, source_actives: &[], states: &[] };
        Second::sound().router(1, &TableCall::MatchShared { reception, output: &[] })
    };
    assert_eq!(asked(&[10, 0, 0, 2]), Some(vec![10, 0, 0, 2]));
    assert_eq!(asked(&[2; 16]), Some(vec![2; 16]));
    assert_eq!(asked(&[10, 0, 0]), None);
    assert_eq!(asked(&[]), None);
}
