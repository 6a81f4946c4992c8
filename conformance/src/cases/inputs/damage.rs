//! What can be wrong with a table, one thing at a time (document 01, "The table memory": what sound means; document 02, W-208).

use super::routes::{bad_attributes, picked};
use crate::{
    random::Random,
    second::table::memory::{size, HEADER, PLACE},
};

/// Changes a sound table that has so many places taken. Some changes leave it sound, and where no place is taken most
/// have nothing to change.
type Damage = fn(&mut Random, &mut Vec<u8>, usize);

pub const DAMAGES: [Damage; 33] = [
    // Size.
    |_, memory, _| memory.truncate(memory.len() - 1),
    |_, memory, _| memory.push(0),
    |_, memory, _| memory.truncate(memory.len().saturating_sub(PLACE)),
    |_, memory, _| memory.resize(memory.len() + PLACE, 0),
    |_, memory, _| memory.truncate(HEADER - 1),
    // Header.
    |_, memory, count| set_count(memory, count + 1),
    |_, memory, count| set_count(memory, count.wrapping_sub(1)),
    |_, memory, _| {
        let places = (memory.len() - HEADER) / PLACE;
        set_count(memory, places + 1);
    },
    |_, memory, _| memory[5] = 3 - memory[5],
    |random, memory, _| memory[random.below(5)] ^= 1,
    |_, memory, _| memory[3..5].copy_from_slice(&[1, 0]),
    // Order.
    |random, memory, count| neighbours(random, memory, count, |first, second| first.swap_with_slice(second)),
    |random, memory, count| neighbours(random, memory, count, |first, second| second.copy_from_slice(first)),
    |random, memory, count| neighbours(random, memory, count, |first, second| first.copy_from_slice(second)),
    // Sizes in a place.
    |random, memory, count| in_place(random, memory, count, |_, place| place[0] = place[0].wrapping_add(1)),
    |random, memory, count| in_place(random, memory, count, |_, place| place[0] = place[0].wrapping_sub(1)),
    |random, memory, count| in_place(random, memory, count, |_, place| place[1] = place[1].wrapping_add(1)),
    |random, memory, count| in_place(random, memory, count, |_, place| place[1] = place[1].wrapping_sub(1)),
    |random, memory, count| in_place(random, memory, count, |random, place| place[random.below(2)] = 255),
    // Content of a place.
    |random, memory, count| in_place(random, memory, count, |_, place| place.fill(0)),
    |random, memory, count| in_place(random, memory, count, octets_after),
    |random, memory, count| in_place(random, memory, count, bad_attribute),
    |_, memory, count| other_kind(memory, count),
    // Zeros.
    |random, memory, count| {
        in_place(random, memory, count, |random, place| {
            let end = usize::from(place[0]) + usize::from(place[1]) + 2;
            place[random.pick(&[end, PLACE - 2])] = 1;
        })
    },
    |random, memory, count| past_last_place(memory, count, |rest| rest[random.below(rest.len())] = 1),
    |_, memory, count| past_last_place(memory, count, |rest| rest[0] = 14),
    |_, memory, count| past_last_place(memory, count, |rest| rest[rest.len() - 1] = 0x80),
    // Marks: other values, the other of the two, in a free place, in the octet before.
    |random, memory, count| in_place(random, memory, count, |_, place| place[PLACE - 1] = 2),
    |random, memory, count| in_place(random, memory, count, |random, place| place[PLACE - 1] = random.octet().max(2)),
    |random, memory, count| in_place(random, memory, count, |_, place| place[PLACE - 1] ^= 1),
    |_, memory, count| past_last_place(memory, count, |rest| rest[PLACE - 1] = 1),
    |_, memory, count| past_last_place(memory, count, |rest| rest[rest.len() - 1] = 1),
    |random, memory, count| in_place(random, memory, count, |_, place| place[PLACE - 2..].copy_from_slice(&[1, 0])),
];

fn set_count(memory: &mut [u8], count: usize) {
    memory[6..8].copy_from_slice(&(count as u16).to_be_bytes());
}

/// Changes one of the taken places.
fn in_place(random: &mut Random, memory: &mut [u8], count: usize, change: impl Fn(&mut Random, &mut [u8])) {
    if count > 0 {
        let place = random.below(count);
        change(random, &mut memory[size(place)..size(place + 1)]);
    }
}

/// Changes two taken places that stand beside each other.
fn neighbours(random: &mut Random, memory: &mut [u8], count: usize, change: fn(&mut [u8], &mut [u8])) {
    if count > 1 {
        let first = random.below(count - 1);
        let (front, back) = memory.split_at_mut(size(first + 1));
        change(&mut front[size(first)..], &mut back[..PLACE]);
    }
}

/// Changes the places behind the last taken one.
fn past_last_place(memory: &mut [u8], count: usize, change: impl FnOnce(&mut [u8])) {
    let rest = &mut memory[size(count)..];
    if !rest.is_empty() {
        change(rest);
    }
}

/// Rewrites a place whose NLRI and attribute are given.
fn fill(place: &mut [u8], nlri: &[u8], attribute: &[u8]) {
    let octets = [&[nlri.len() as u8, attribute.len() as u8], nlri, attribute].concat();
    if octets.len() <= place.len() {
        place.fill(0);
        place[..octets.len()].copy_from_slice(&octets);
    }
}

fn parts(place: &[u8]) -> (Vec<u8>, Vec<u8>) {
    let (nlri, rest) = place[2..].split_at(place[0].into());
    (nlri.to_vec(), rest[..place[1].into()].to_vec())
}

/// An octet after the NLRI, which is counted with it.
fn octets_after(_: &mut Random, place: &mut [u8]) {
    let (nlri, attribute) = parts(place);
    fill(place, &[nlri, vec![0]].concat(), &attribute);
}

/// An attribute that install refuses, BIER with label 0 among them.
fn bad_attribute(random: &mut Random, place: &mut [u8]) {
    let (nlri, _) = parts(place);
    fill(place, &nlri, picked(random, &bad_attributes()));
}

/// A well-formed NLRI of type 1 in the first place: in order, but of another kind.
fn other_kind(memory: &mut [u8], count: usize) {
    if count > 0 {
        let place = &mut memory[HEADER..size(1)];
        let (_, attribute) = parts(place);
        fill(place, &[1, 12, 0, 0, 0, 100, 0, 0, 0, 7, 10, 0, 0, 1], &attribute);
    }
}
