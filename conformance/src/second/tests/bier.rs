//! Bit strings on examples with the answers written from document 02, W-211, and beside what RFC 8279 says of single BFR-ids.

use crate::{
    cases::{
        bier::examples::{asked_of, leaves_of, route_of, Call, EXAMPLES, FILL, REFUSALS},
        inputs::lists::list,
    },
    ffi::Egress,
    second::{
        bier::{packet::Packet, string::STRING},
        Second,
    },
};

#[test]
fn examples() {
    for (example, afi) in EXAMPLES.iter().flat_map(|example| [(example, 1), (example, 2)]) {
        let ([nlri, attribute], leaves) = (route_of(afi), leaves_of(afi, example.2));
        let packet = Packet { afi, nlri: &nlri, attribute: &attribute, set: example.1, leaves: &leaves };
        let answer = Second::sound().answer_bier_string(packet, &[FILL; STRING + 2]);
        assert_eq!(answer, asked_of(example, 2), "{}", example.0);
    }
}

#[test]
fn refusals() {
    for refusal in &REFUSALS {
        let call = Call::of(refusal);
        let answer = Second::sound().answer_bier_string(call.packet(), &vec![FILL; call.room]);
        assert_eq!(answer, call.refused(refusal.2), "{}", refusal.0);
    }
}

/// RFC 8279, section 3: the BFR-ids in all sets, each at one position of one of them.
#[test]
fn every_id_once() {
    let [nlri, attribute] = route_of(1);
    for id in [1, 2, 255, 256, 257, 4_711, 65_279, 65_280, 65_281, 65_535u32] {
        let leaves = leaves_of(1, &id.to_string());
        for set in 0..=255 {
            let packet = Packet { afi: 1, nlri: &nlri, attribute: &attribute, set, leaves: &leaves };
            let answer = Second::sound().answer_bier_string(packet, &[FILL; STRING]);
            let string = answer.output.iter().fold(0u32, |ones, octet| ones + octet.count_ones());
            let here = u32::from(set) == (id - 1) / 256;
            assert_eq!((answer.answer.routers, string), (here.into(), here.into()), "{id} in {set}");
            if here {
                let bit = (id - 1) % 256;
                assert_eq!(answer.output[31 - bit as usize / 8], 1 << (bit % 8), "{id} in {set}");
            }
        }
    }
}

/// 256 Leaves of one set, and the most Leaves of one BFR-id.
#[test]
fn full() {
    let [nlri, attribute] = route_of(2);
    let words: Vec<String> = (1..=1_024).rev().map(|id| id.to_string()).collect();
    let leaves = leaves_of(2, &words.join(" "));
    for (set, routers) in [(0, 256), (3, 256), (4, 0), (255, 0)] {
        let packet = Packet { afi: 2, nlri: &nlri, attribute: &attribute, set, leaves: &leaves };
        let answer = Second::sound().answer_bier_string(packet, &[FILL; STRING]);
        assert_eq!(answer.answer, Egress { number: 0, routers });
        assert_eq!(answer.output, [if routers == 0 { 0 } else { 0xFF }; STRING]);
    }
    let leaves = leaves_of(2, &["5"; 1_024].join(" "));
    let packet = Packet { afi: 2, nlri: &nlri, attribute: &attribute, set: 0, leaves: &leaves };
    assert_eq!(Second::sound().answer_bier_string(packet, &[FILL; STRING]).answer, Egress { number: 0, routers: 1 });
    let leaves = list::<2>(&[]);
    let packet = Packet { leaves: &leaves, ..packet };
    assert_eq!(Second::sound().answer_bier_string(packet, &[FILL; STRING]).output, [0; STRING]);
}
