//! Random and near-valid inputs for every call.

use super::{attribute_writing, nlri_writing};
use crate::{
    cases::inputs::{lists::EMPTY, near},
    compare::{Checked, Harness},
    random::Random,
};

pub fn all(harness: &mut Harness, random: &mut Random, cases: u64) -> Checked {
    for _ in 0..cases {
        one(harness, random)?;
    }
    Ok(())
}

fn one(harness: &mut Harness, random: &mut Random) -> Checked {
    match random.below(100) {
        0..=34 => nlri(harness, random),
        35..=36 => run(harness, random),
        37..=46 => octets(harness, random),
        47..=69 => attribute(harness, random),
        70..=73 => group(harness, random),
        74..=87 => {
            harness.inputs += 1;
            nlri_writing::random_case(harness, random)
        }
        _ => {
            harness.inputs += 1;
            attribute_writing::random_case(harness, random)
        }
    }
}

/// A single NLRI near to a well-formed one, read every way and written back.
fn nlri(harness: &mut Harness, random: &mut Random) -> Checked {
    let afi = near::afi(random);
    let mut octets = near::nlri(random, afi);
    near::disturb_nlri(random, &mut octets);
    harness.read_all_ways(afi, &octets)?;
    harness.nlri_round_trip(afi, &octets).map(|_| ())
}

/// A run of up to forty NLRIs, walked, stepped through, and stepped from any cursor.
fn run(harness: &mut Harness, random: &mut Random) -> Checked {
    let afi = near::afi(random);
    let count = random.below(40);
    let run = near::joined(random, count, 12, |random| near::item(random, afi));
    harness.inputs += 1;
    harness.walk_by_steps(afi, &run)?;
    for _ in 0..4 {
        let cursor = random.below(run.len() + 4);
        harness.step(afi, &run, cursor)?;
    }
    Ok(())
}

/// Octets without any form, as a single NLRI, a run and an attribute.
fn octets(harness: &mut Harness, random: &mut Random) -> Checked {
    let size = random.below(80);
    let octets = random.octets(size);
    let afi = near::afi(random);
    harness.read_all_ways(afi, &octets)?;
    harness.attribute_read(&octets).map(|_| ())
}

fn attribute(harness: &mut Harness, random: &mut Random) -> Checked {
    let mut octets = near::attribute(random);
    if random.once_in(2) {
        near::disturb(random, &mut octets);
    }
    harness.attribute_round_trip(&octets).map(|_| ())
}

fn group(harness: &mut Harness, random: &mut Random) -> Checked {
    let afi = near::afi(random);
    let size = if random.once_in(8) { random.below(20) } else { random.pick(&[4, 16]) };
    let mut octets = random.octets(size);
    if let [first, ..] = &mut octets[..] {
        *first = random.pick(&[0xDF, 0xE0, 0xE7, 0xE8, 0xE9, 0xEF, 0xF0, 0xFE, 0xFF, 0xFF, 0xFF]);
    }
    // Half the time about FF3x::/32, with a bit past it now and then.
    if let (true, [_, second, third, fourth, ..]) = (random.once_in(2), &mut octets[..]) {
        *second = random.pick(&[0x2F, 0x30, 0x31, 0x3E, 0x3F, 0x40]);
        *third = random.pick(&[0, 0, 0, 1]);
        *fourth = random.pick(&[0, 0, 0, 1]);
    }
    harness.group_class(afi, EMPTY, &octets).map(|_| ())
}
