//! Runs about the limit of 4,096 octets, cursors about the end, and attributes about the limit of 64 octets.

use crate::{
    cases::inputs::{
        near,
        samples::{all_nlris, attributes, nlris, BAD_AFIS, GOOD_AFIS},
    },
    compare::{Checked, Harness, Input},
    random::Random,
};

/// The most octets of a run (document 01, "NLRI on the wire").
const LONGEST_RUN: usize = 4_096;

const SIZES: [usize; 12] = [0, 1, 2, 4_094, 4_095, 4_096, 4_097, 4_098, 8_192, 10_000, 65_536, 70_001];

pub fn all(harness: &mut Harness, random: &mut Random) -> Checked {
    for _ in 0..10 {
        for afi in GOOD_AFIS.into_iter().chain(BAD_AFIS) {
            long_runs(harness, random, afi)?;
        }
    }
    for afi in GOOD_AFIS {
        cursors(harness, afi)?;
    }
    far_too_long(harness)?;
    attribute_sizes(harness, random)
}

/// A well-formed NLRI with so many octets after it that the low bits of the size are its own.
fn far_too_long(harness: &mut Harness) -> Checked {
    for sample in all_nlris() {
        for extra in [256, 512, 4_096, 65_536] {
            let octets = [sample.octets.clone(), vec![0; extra]].concat();
            harness.read_all_ways(sample.afi, &octets)?;
        }
    }
    Ok(())
}

/// Runs of well-formed NLRIs cut at each size, and zeros of that size.
fn long_runs(harness: &mut Harness, random: &mut Random, afi: u16) -> Checked {
    for size in SIZES {
        let run = near::run_of(random, afi, size);
        harness.inputs += 2;
        harness.walk_by_steps(afi, &run)?;
        harness.walk_both_ways(afi, &vec![0; size])?;
        for cursor in [0, 1, size.saturating_sub(1), size, size + 1, LONGEST_RUN, usize::MAX] {
            harness.step(afi, &run, cursor)?;
        }
        if size < 300 || random.once_in(4) {
            harness.nlri_read(afi, &run)?;
        }
    }
    Ok(())
}

/// Every cursor of a run that holds each sample once, and cursors past its end.
fn cursors(harness: &mut Harness, afi: u16) -> Checked {
    let run: Vec<u8> = nlris(afi).into_iter().flat_map(|sample| sample.octets).collect();
    harness.walk_by_steps(afi, &run)?;
    let huge = [usize::MAX, usize::MAX - 1, usize::MAX / 2, 1 << 32, 1 << 16, run.len() + 100];
    for cursor in (0..=run.len() + 3).chain(huge) {
        harness.inputs += 1;
        harness.step(afi, &run, cursor)?;
    }
    // Octets that stand behind the run's end are not its octets.
    for size in 0..=run.len() {
        harness.walk_both_ways(afi, Input::cut(&run, size))?;
        harness.step(afi, Input::cut(&run, size), size)?;
        harness.step(afi, Input::cut(&run, size), size + 1)?;
    }
    for afi in BAD_AFIS {
        harness.step(afi, &run, 0)?;
        harness.step(afi, &run, run.len())?;
        harness.step(afi, &run, usize::MAX)?;
    }
    Ok(())
}

/// Every size from 0 to 320 for each tunnel type, with the sample's octets in front.
fn attribute_sizes(harness: &mut Harness, random: &mut Random) -> Checked {
    for attribute in attributes() {
        let padded = [attribute, random.octets(320)].concat();
        for size in 0..=320 {
            harness.attribute_read(Input::cut(&padded, size))?;
        }
    }
    for size in [1_000, 4_096, 65_536 + 12] {
        harness.attribute_read(&vec![0; size])?;
    }
    Ok(())
}
