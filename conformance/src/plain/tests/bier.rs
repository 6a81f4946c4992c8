//! The plain bit string on document 02's examples, W-211, and on lists about few routes against the second decoder's.

use crate::{
    cases::{
        bier::{
            examples::{asked_of, leaves_of, route_of, Call, EXAMPLES, FILL, REFUSALS},
            strings::{any_output, any_packet, AnyPacket},
        },
        inputs::routes::Addresses,
    },
    plain,
    random::Random,
    second::{
        bier::{
            packet::{BitString, Packet},
            string::STRING,
        },
        Second,
    },
};

const CASES: usize = 40_000;

fn string(packet: Packet, output: &[u8]) -> BitString {
    let Packet { afi, nlri, attribute, set, leaves } = packet;
    let mut output = output.to_vec();
    let (place, room) = (output.as_mut_ptr(), output.len());
    let answer = unsafe {
        let (tunnel, list) = (attribute.as_ptr(), leaves.as_ptr());
        plain::bier_string(
            afi,
            nlri.as_ptr(),
            nlri.len(),
            tunnel,
            attribute.len(),
            set,
            list,
            leaves.len(),
            place,
            room,
        )
    };
    BitString { answer, output }
}

#[test]
fn examples() {
    for (example, afi) in EXAMPLES.iter().flat_map(|example| [(example, 1), (example, 2)]) {
        let ([nlri, attribute], leaves) = (route_of(afi), leaves_of(afi, example.2));
        let packet = Packet { afi, nlri: &nlri, attribute: &attribute, set: example.1, leaves: &leaves };
        assert_eq!(string(packet, &[FILL; STRING + 2]), asked_of(example, 2), "{}", example.0);
    }
    for refusal in &REFUSALS {
        let call = Call::of(refusal);
        assert_eq!(string(call.packet(), &vec![FILL; call.room]), call.refused(refusal.2), "{}", refusal.0);
    }
}

#[test]
fn any_lists_as_the_second() {
    let mut random = Random::new(211);
    for afi in [1, 2] {
        let addresses = Addresses::of_family(afi);
        for _ in 0..CASES {
            let AnyPacket { afi, nlri, attribute, set, leaves } = any_packet(&mut random, &addresses);
            let packet = Packet { afi, nlri: &nlri, attribute: &attribute, set, leaves: &leaves };
            let mut output = any_output(&mut random);
            output.truncate(if random.once_in(8) { random.below(STRING + 1) } else { output.len() });
            assert_eq!(string(packet, &output), Second::sound().answer_bier_string(packet, &output), "{packet:?}");
        }
    }
}
