//! The second decoder on document 01's examples, and on layouts spelled out from the RFCs.

use crate::{
    cases::{
        document::{ATTRIBUTES, GROUPS, LISTED, LISTED_TEXT, NLRIS, RD},
        fecs::examples::{self, examples},
        inputs::samples::{all_nlris, identifiers, mldp},
        runs::skips::LISTINGS,
    },
    ffi::{Group, Span},
    hexadecimal::octets,
    second::{fault::Fault, groups::prefixes::NO_PREFIXES, nlri::rows::Field, number::Number, Second},
};

#[test]
fn document_examples() {
    let second = Second::sound();
    for (afi, group, number, group_class) in GROUPS {
        assert_eq!(
            second.answer_group_class(afi, NO_PREFIXES, &octets(group)),
            Group { number, group_class },
            "{group}"
        );
    }
    for (shows, afi, text, number) in NLRIS {
        let nlri = octets(&text.replace("RD", RD));
        assert_eq!(second.answer_nlri_read(afi, &nlri).number, number, "{shows}");
    }
    for (shows, text, number, label) in ATTRIBUTES {
        let reading = second.answer_attribute_read(&octets(text));
        assert_eq!((reading.number, reading.label), (number, label), "{shows}");
    }
}

#[test]
fn listing_text() {
    let second = Second::sound();
    assert_eq!(second.listing(&[b"old"], &octets(LISTED)), LISTED_TEXT);
    for (shows, arguments, run, text) in LISTINGS {
        assert_eq!(second.listing(arguments, &octets(run)), text, "{shows}");
    }
    assert_eq!(second.listing(&[b"old"], &[0; 4_097]), "MVT list 1\nstop 0 8\n");
    assert_eq!(second.listing(&[], &[0; 4_097]), "MVT list 1\nstop 0 8 0\n");
    assert_eq!(second.listing(&[], &[0; 4_096]), "MVT list 1\nend 4096 0 2048\n");
}

/// RFC 6514, section 4.4: the key of a Leaf is the whole NLRI it answers, here an IPv6 S-PMSI route for one source and
/// every group (RFC 6625, section 2).
#[test]
fn leaf_of_a_wildcard_route() {
    let key = octets("032E 0000006400000007 80 20010DB8000000000000000000000001 00 20010DB80000000000000000000000FE");
    let leaf = [&[4, 0x30], &key[..], &[10, 0, 0, 2]].concat();
    let reading = Second::sound().single(2, &leaf);
    assert_eq!(reading, Err(Number::Key), "the key's Length is wrong by four");
    let key = octets("032A 0000006400000007 80 20010DB8000000000000000000000001 00 20010DB80000000000000000000000FE");
    let leaf = [&[4, 0x30], &key[..], &[10, 0, 0, 2]].concat();
    let reading = Second::sound().single(2, &leaf).expect("a Leaf");
    assert_eq!(reading.octets(Field::Key), key);
    assert_eq!(reading.octets(Field::Originator), [10, 0, 0, 2]);
}

/// RFC 6388, section 2.2, in a PMSI Tunnel attribute (RFC 6514, section 5).
#[test]
fn fec_spans() {
    let attribute = octets("81 07 000641 08 0002 10 20010DB8000000000000000000000001 0003 0A0B0C");
    let reading = Second::sound().answer_attribute_read(&attribute);
    assert_eq!((reading.number, reading.label, reading.leaf_information_required), (0, 0x64, 1));
    assert_eq!(reading.identifier, Span { start: 5, size: 25 });
    assert_eq!((reading.fec.fec_type, reading.fec.address_family), (8, 2));
    assert_eq!((reading.fec.root, reading.fec.opaque), (Span { start: 9, size: 16 }, Span { start: 27, size: 3 }));
}

/// The samples are laid out without the encoder, so the two check each other.
#[test]
fn samples_are_read_and_written_back() {
    let second = Second::sound();
    for sample in all_nlris() {
        let reading = second.answer_nlri_read(sample.afi, &sample.octets);
        assert_eq!((reading.number, reading.nlri), (0, sample.nlri));
        let size = sample.octets.len();
        let write = |room| second.nlri_write(sample.afi, &sample.nlri, &sample.key, &sample.fec, room);
        assert_eq!((write(size), write(size - 1)), (Ok(sample.octets), Err(Number::Space)));
    }
    for (tunnel_type, identifier) in identifiers() {
        let size = 5 + identifier.len();
        let attribute = second.attribute_write(0xFE, tunnel_type, 0xAB_CDEF, &identifier, size).expect("room");
        assert_eq!(attribute[..5], [0xFE, tunnel_type, 0xAB, 0xCD, 0xEF]);
        assert_eq!(second.attribute(&attribute).expect("well-formed").identifier, identifier);
    }
}

/// Document 02, W-207.
#[test]
fn fec_elements_in_nlris() {
    let second = Second::sound();
    for example in examples() {
        let reading = second.answer_nlri_read(example.afi, &example.nlri());
        assert_eq!(reading.number, example.number, "{}", example.shows);
    }
    let nlri = octets("4716 0000006400000007 0000FDE8 06 0001 04 0A000001 0000");
    let reading = second.answer_nlri_read(1, &nlri);
    assert_eq!((reading.key, reading.fec), (Span::default(), Span { start: 14, size: 10 }));
    assert_eq!(second.answer_step(1, &nlri, 0).layout.fec, 10);
    assert_eq!(second.listing(&[], &octets(examples::LISTED)), examples::LISTED_TEXT);
    for (afi, depth) in [(1, 1), (2, 2), (1, 3), (2, 4)] {
        for sample in mldp(afi, depth) {
            let room = sample.octets.len();
            assert_eq!(second.single(afi, &sample.octets).map(|reading| reading.length), Ok(room as u8 - 2));
            assert_eq!(second.nlri_write(afi, &sample.nlri, &sample.key, &sample.fec, room), Ok(sample.octets));
        }
    }
}

#[test]
fn faults_are_found_by_name() {
    assert_eq!(Fault::named("ssm-ipv6-as-16"), Some(Fault::SSM_IPV6_AS_16));
    assert_eq!(Fault::named("no-such-fault"), None);
}
