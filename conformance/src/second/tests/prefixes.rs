//! Prefixes with answers written from document 02, W-209, and beside addresses compared bit by bit.

use crate::{
    cases::{
        inputs::lists::{counting, list, prefix, prefix_of, set},
        matches::no_tunnel::table_of,
        prefixes::examples::{
            ask_flow, ask_shared_tree, flow_answers, shared_tree_answer, ASKS, CLASSES, FLOWS, HELD, SHARED_TREES,
        },
    },
    ffi::Group,
    hexadecimal::octets,
    random::Random,
    second::{
        groups::{
            class::Class,
            prefixes::{MOST_PREFIXES, NO_PREFIXES},
        },
        number::Number,
        Second,
    },
};
use std::slice::from_ref;

#[test]
fn written_examples() {
    let second = Second::sound();
    for (shows, afi, prefixes, group, number, group_class) in CLASSES {
        let answer = second.answer_group_class(afi, &octets(prefixes), &octets(group));
        assert_eq!(answer, Group { number, group_class }, "{shows}");
    }
    for row in &FLOWS {
        for (asks, asked) in ASKS.into_iter().zip(flow_answers(row)) {
            assert_eq!(ask_flow(row, asks, |call| second.on_memory(&table_of(row.1), call)).0, asked, "{}", row.0);
        }
    }
    for row in &SHARED_TREES {
        let (answer, _) = ask_shared_tree(row, |call| second.on_memory(&table_of(HELD), call));
        assert_eq!(answer, shared_tree_answer(row), "{}", row.0);
    }
}

fn bit(address: &[u8], at: usize) -> bool {
    address[at / 8] >> (7 - at % 8) & 1 == 1
}

/// A prefix holds a group whose first bits, as many as its length, are its own; one with a later bit set is RANGE.
#[test]
fn bit_by_bit() {
    let (second, mut random) = (Second::sound(), Random::new(5));
    for (afi, size) in [(1, 4), (2, 16)] {
        for length in 0..=8 * size {
            for _ in 0..40 {
                let mut group = random.octets(size);
                group[0] = if afi == 1 { 0xE0 | group[0] & 0x0F } else { 0xFF };
                let [mut field] = prefix_of(length as u8, &group);
                for flipped in 0..random.below(3) {
                    let at = random.below(8 * size);
                    set(&mut group, at, flipped == 0);
                }
                let multicast = if afi == 1 { group[0] >> 4 == 0xE } else { group[0] == 0xFF };
                let held = (0..length).all(|at| bit(&group, at) == bit(&field[1..], at));
                let class = match (multicast, held) {
                    (false, _) => Err(Number::Flow),
                    (true, true) => Ok(Class::Ssm),
                    (true, false) => Ok(Class::Asm),
                };
                assert_eq!(second.group_class(afi, &list(&[[field.clone()]]), &group), class, "{field:?} {group:?}");
                if length < 8 * size {
                    set(&mut field[1..], length + random.below(8 * size - length), true);
                    assert_eq!(second.group_class(afi, &list(&[[field]]), &group), Err(Number::Range));
                }
            }
        }
    }
}

/// None, one, eight and nine, and a list that ends early.
#[test]
fn numbers_of_prefixes() {
    let (second, group) = (Second::sound(), [239, 1, 1, 1]);
    let [own, other] = [prefix(8, &[239, 0, 0, 0]), prefix(8, &[238, 0, 0, 0])];
    let class = |prefixes: &[u8]| second.group_class(1, prefixes, &group);
    assert_eq!(class(NO_PREFIXES), Ok(Class::Asm));
    assert_eq!(class(&list(from_ref(&own))), Ok(Class::Ssm));
    for at in 0..MOST_PREFIXES {
        let mut eight = vec![other.clone(); MOST_PREFIXES];
        assert_eq!(class(&list(&eight)), Ok(Class::Asm));
        eight[at] = own.clone();
        assert_eq!(class(&list(&eight)), Ok(Class::Ssm), "the one at {at}");
        eight.push(own.clone());
        assert_eq!(class(&list(&eight)), Err(Number::Range));
        assert_eq!(class(&counting(8, &eight[..7])), Err(Number::Short));
        assert_eq!(class(&counting(9, &eight[..7])), Err(Number::Range));
    }
}
