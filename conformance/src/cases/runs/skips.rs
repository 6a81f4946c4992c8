//! Route types that are not known (document 02, W-206): examples with their answers, every type and Length, unknown types at
//! every place of a run, in keys and past its end, in both modes; walked, in pieces and listed.

use super::pieces::{any_ends, any_pieces, every_cut, pieces, read};
use crate::{
    cases::{
        document::{in_papers, LISTED, RD},
        inputs::{
            near::{self, UNKNOWN},
            samples::{nlris, BAD_AFIS, GOOD_AFIS},
        },
    },
    compare::{run::MODES, Checked, Harness, Input},
    ffi::Walked,
    hexadecimal::octets,
    random::Random,
    second::runs::run::{OLD, SKIP},
};

/// What it shows, AFI, mode, the run with `RD` for the distinguisher and bars where it is cut, the NLRIs read, and the walk's
/// number, count, offset and number skipped.
pub type Example = (&'static str, u16, u32, &'static str, &'static [&'static str], [u32; 4]);

const READ: &str = "020C RD 0000FDE8";

pub const EXAMPLES: [Example; 36] = [
    ("document 01's run", 1, SKIP, "030E RD 00 00 0A000001 0900", &["030E RD 00 00 0A000001"], [0, 1, 18, 1]),
    ("the old stop", 1, OLD, "030E RD 00 00 0A000001 0900", &["030E RD 00 00 0A000001"], [2, 1, 16, 0]),
    ("2 is the old mode", 1, 2, "020C RD 0000FDE8 0900", &[READ], [2, 1, 14, 0]),
    ("256 is the old mode", 1, 256, "0900 020C RD 0000FDE8", &[], [2, 0, 0, 0]),
    ("65,536 is the old mode", 2, 0x1_0000, "0900", &[], [2, 0, 0, 0]),
    ("the last number is the old mode", 1, u32::MAX, "0900", &[], [2, 0, 0, 0]),
    ("a skip alone", 1, SKIP, "0900", &[], [0, 0, 2, 1]),
    ("a skip alone, AFI 2", 2, SKIP, "0900", &[], [0, 0, 2, 1]),
    ("type 0", 1, SKIP, "0000", &[], [0, 0, 2, 1]),
    ("type 8", 1, SKIP, "0803 010203|020C RD 0000FDE8", &[READ], [0, 1, 19, 1]),
    ("type 255", 2, SKIP, "FF01 00|020C RD 0000FDE8", &[READ], [0, 1, 17, 1]),
    ("what stands behind is read", 1, SKIP, "0900 020C RD 0000FDE8", &[READ], [0, 1, 16, 1]),
    ("one between two", 1, SKIP, "020C RD 0000FDE8 09|02|AABB 020C RD 0000FDE8", &[READ, READ], [0, 2, 32, 1]),
    ("three in a row", 1, SKIP, "0900 0801|00 FF02 0101 020C RD 0000FDE8", &[READ], [0, 1, 23, 3]),
    ("the same, old", 1, OLD, "0900 0801|00 FF02 0101 020C RD 0000FDE8", &[], [2, 0, 0, 0]),
    ("content like an NLRI", 1, SKIP, "090E 020C RD 0000FDE8", &[], [0, 0, 16, 1]),
    ("content like an unknown type", 1, SKIP, "0902 0900", &[], [0, 0, 4, 1]),
    ("content like a Length", 1, SKIP, "0901 FF|020C RD 0000FDE8", &[READ], [0, 1, 17, 1]),
    ("past the run", 1, SKIP, "0901", &[], [1, 0, 0, 0]),
    ("past the run by one", 1, SKIP, "020C RD 0000FDE8|0905 01020304", &[READ], [1, 1, 14, 0]),
    ("past the run behind a skip", 1, SKIP, "0900|0905 00", &[], [1, 0, 2, 1]),
    ("a whole NLRI past the run's end", 1, SKIP, "0910 020C RD 0000FDE8", &[], [1, 0, 0, 0]),
    ("half a header", 1, SKIP, "0900 09", &[], [1, 0, 2, 1]),
    ("a type inside a key", 1, SKIP, "0406 0900 0A000001", &[], [5, 0, 0, 0]),
    ("a type inside a key behind a skip", 1, SKIP, "0900 0406 0900 0A000001 020C RD 0000FDE8", &[], [5, 0, 2, 1]),
    ("a type inside a key, old", 1, OLD, "0406 0900 0A000001", &[], [5, 0, 0, 0]),
    ("LENGTH behind a skip", 1, SKIP, "0900 0300 0900", &[], [3, 0, 2, 1]),
    ("WIDTH between skips", 1, SKIP, "0900 020C RD 0000FDE8 0900 0309 RD 18 0900", &[READ], [4, 1, 18, 2]),
    ("LENGTH of a known type", 1, SKIP, "0700 020C RD 0000FDE8", &[], [3, 0, 0, 0]),
    ("nothing is skipped", 1, SKIP, "020C RD 0000FDE8|020C RD 0000FDE8", &[READ, READ], [0, 2, 28, 0]),
    ("nothing is skipped, old", 1, OLD, "020C RD 0000FDE8|020C RD 0000FDE8", &[READ, READ], [0, 2, 28, 0]),
    ("no octets", 1, SKIP, "", &[], [0, 0, 0, 0]),
    ("a bad AFI", 3, SKIP, "0900", &[], [10, 0, 0, 0]),
    ("a bad AFI, old", 0, OLD, "0900", &[], [10, 0, 0, 0]),
    ("pieces of none", 2, SKIP, "|09||00|", &[], [0, 0, 2, 1]),
    ("octet by octet", 1, SKIP, "09|01|09|09|00", &[], [0, 0, 5, 2]),
];

/// What it shows, the program's arguments, the octets, and the whole text.
pub type Listed = (&'static str, &'static [&'static [u8]], &'static str, &'static str);

pub const LISTINGS: [Listed; 20] = [
    ("document 01's run", &[], LISTED, "MVT list 1\n0 3 14\nend 18 0 1\n"),
    ("the old mode", &[b"old"], LISTED, "MVT list 1\n0 3 14\nstop 16 2\n"),
    ("`old` twice", &[b"old", b"old"], LISTED, "MVT list 1\n0 3 14\nend 18 0 1\n"),
    ("`old` and another", &[b"old", b""], LISTED, "MVT list 1\n0 3 14\nend 18 0 1\n"),
    ("another and `old`", &[b"x", b"old"], LISTED, "MVT list 1\n0 3 14\nend 18 0 1\n"),
    ("capitals", &[b"OLD"], LISTED, "MVT list 1\n0 3 14\nend 18 0 1\n"),
    ("more letters", &[b"older"], LISTED, "MVT list 1\n0 3 14\nend 18 0 1\n"),
    ("fewer letters", &[b"ol"], LISTED, "MVT list 1\n0 3 14\nend 18 0 1\n"),
    ("a space behind", &[b"old "], LISTED, "MVT list 1\n0 3 14\nend 18 0 1\n"),
    ("an empty argument", &[b""], LISTED, "MVT list 1\n0 3 14\nend 18 0 1\n"),
    ("dashes", &[b"--old"], LISTED, "MVT list 1\n0 3 14\nend 18 0 1\n"),
    ("octets that are no text", &[b"old\xFF"], LISTED, "MVT list 1\n0 3 14\nend 18 0 1\n"),
    ("no octets", &[], "", "MVT list 1\nend 0 0 0\n"),
    ("no octets, old", &[b"old"], "", "MVT list 1\nend 0 0\n"),
    ("no line for a skip", &[], "0900 020C 0000006400000007 0000FDE8", "MVT list 1\n2 2 12\nend 16 0 1\n"),
    ("a stop behind a skip", &[], "0900 0300", "MVT list 1\nstop 2 3 1\n"),
    ("a stop without a skip", &[], "0300", "MVT list 1\nstop 0 3 0\n"),
    ("a stop, old", &[b"old"], "0300 0900", "MVT list 1\nstop 0 3\n"),
    ("SHORT behind two skips", &[], "0900 FF01 00 0901", "MVT list 1\nstop 5 1 2\n"),
    ("KEY", &[], "0406 0900 0A000001", "MVT list 1\nstop 0 5 0\n"),
];

/// Random runs: so many, and one more for so many random cases.
const ROUNDS: u64 = 2_000;
const CASES_A_ROUND: u64 = 300;

/// Runs that are cut everywhere.
const SHORT_RUNS: [(u16, &str); 5] = [
    (1, "0900 020C RD 0000FDE8 0803 000000"),
    (1, "020C RD 0000FDE8 0900 FF02 0900 020C"),
    (1, "0905 0102030405 0406 0900 0A000001"),
    (2, "0900 0800 0000 010C RD 0A000001 0900"),
    (2, "0910 010C RD 0A000001 09"),
];

pub fn all(harness: &mut Harness, random: &mut Random, cases: u64) -> Checked {
    examples(harness, random, "W-206", &EXAMPLES)?;
    listings(harness, "W-206", &LISTINGS)?;
    limits(harness, random)?;
    headers(harness)?;
    lengths(harness, random)?;
    in_samples(harness, random)?;
    for (afi, run) in SHORT_RUNS {
        every_cut(harness, random, afi, &octets(&run.replace("RD", RD)))?;
    }
    for round in 0..ROUNDS + cases / CASES_A_ROUND {
        any_run(harness, random, round)?;
    }
    Ok(())
}

/// Each example of a request as a whole run and in its pieces.
pub fn examples(harness: &mut Harness, random: &mut Random, request: &str, examples: &[Example]) -> Checked {
    let decoded = |text: &str| octets(&text.replace("RD", RD));
    for (shows, afi, mode, text, given, [number, count, offset, skipped]) in examples.iter().copied() {
        let shows = format!("document 02, {request}, {shows}");
        let asked = Walked { number, count, offset, skipped };
        in_papers(shows.clone(), harness.walk(afi, mode, &decoded(&text.replace('|', "")))?, asked)?;
        harness.walk_by_steps(afi, &decoded(&text.replace('|', "")))?;
        let parts: Vec<Vec<u8>> = text.split('|').map(decoded).collect();
        let (reader, walked) = read(harness, random, afi, mode, parts.iter().map(Input::from))?;
        let given: Vec<Vec<u8>> = given.iter().map(|text| decoded(text)).collect();
        in_papers(shows, (reader.given, walked), (given, asked))?;
    }
    Ok(())
}

/// The second decoder's listing; the program's is compared with it elsewhere.
pub fn listings(harness: &mut Harness, request: &str, listings: &[Listed]) -> Checked {
    for (shows, arguments, run, text) in listings {
        let listed = harness.second.listing(arguments, &octets(run));
        in_papers(format!("document 02, {request}, listing, {shows}"), listed, text.to_string())?;
    }
    Ok(())
}

/// Unknown types about 4,096 octets in all, and bad AFIs: nothing is told as skipped.
fn limits(harness: &mut Harness, random: &mut Random) -> Checked {
    for size in [4_094, 4_095, 4_096, 4_097, 4_098, 8_192, 66_000] {
        let zeros = vec![0; size];
        let longest = [&[9, 255][..], &[3; 255]].concat().repeat(size / 257 + 1);
        let mixed = [&near::run_of(random, 1, size - 900)[..], &[9; 900]].concat();
        for (run, afi) in [&zeros, &longest[..size], &mixed].into_iter().flat_map(|run| GOOD_AFIS.map(|afi| (run, afi)))
        {
            harness.walk_both_ways(afi, run)?;
            let piece = if size > 10_000 { 4_000 } else { 300 };
            let ends: Vec<usize> = (0..size).step_by(piece).chain([size]).collect();
            read(harness, random, afi, SKIP, pieces(run, &ends))?;
            read(harness, random, afi, SKIP, pieces(run, &[size - 1, size]))?;
        }
        for afi in BAD_AFIS {
            harness.walk_both_ways(afi, &zeros)?;
        }
    }
    Ok(())
}

/// Every route type alone, with octets behind it, inside a key, and past the run; behind an NLRI and before one.
fn headers(harness: &mut Harness) -> Checked {
    let read = octets(&READ.replace("RD", RD));
    for (afi, route_type) in GOOD_AFIS.into_iter().flat_map(|afi| (0..=255).map(move |route_type| (afi, route_type))) {
        let runs = [
            vec![route_type, 0],
            vec![route_type, 1],
            vec![route_type, 2, 9, 0],
            vec![route_type, 3, 9, 0],
            vec![4, 6, route_type, 0, 10, 0, 0, 1],
            vec![4, 2, route_type, 0],
        ];
        for run in runs {
            harness.inputs += 1;
            for run in [run.clone(), [&read[..], &run].concat(), [&run[..], &read].concat(), run.repeat(2)] {
                harness.walk_both_ways(afi, &run)?;
                harness.step(afi, &run, 0)?;
            }
        }
    }
    for mode in (0..32).flat_map(|bit| [1 << bit, (1 << bit) - 1, !(1 << bit)]) {
        harness.walk(1, mode, &octets(LISTED))?;
        harness.pieces_start(1, mode, [0; 257])?;
    }
    Ok(())
}

/// Every Length of an unknown type, with as many octets, one fewer and one more, between two NLRIs.
fn lengths(harness: &mut Harness, random: &mut Random) -> Checked {
    let read_one = octets(&READ.replace("RD", RD));
    for (afi, length) in GOOD_AFIS.into_iter().flat_map(|afi| (0..=255).map(move |length| (afi, length))) {
        let header = [random.pick(&UNKNOWN), length];
        let whole = [&read_one[..], &header, &random.octets(length.into()), &read_one].concat();
        for size in [whole.len(), whole.len() - 1, whole.len() - 14, whole.len() - 15] {
            harness.inputs += 1;
            harness.walk_both_ways(afi, Input::cut(&whole, size))?;
        }
        harness.walk_by_steps(afi, &whole)?;
        let ends = any_ends(random, whole.len());
        read(harness, random, afi, SKIP, pieces(&whole, &ends))?;
    }
    Ok(())
}

/// Each sample behind, before and between unknown types, and with an unknown type in place of its own.
fn in_samples(harness: &mut Harness, random: &mut Random) -> Checked {
    for sample in GOOD_AFIS.into_iter().flat_map(nlris) {
        let (afi, nlri) = (sample.afi, &sample.octets);
        let skipped = near::unknown(random);
        let mut other = nlri.clone();
        other[0] = random.pick(&UNKNOWN);
        let run = [&skipped[..], nlri, &other, &skipped, nlri, &skipped].concat();
        harness.inputs += 1;
        harness.walk_by_steps(afi, &run)?;
        for size in 0..run.len() {
            harness.walk(afi, SKIP, Input::cut(&run, size))?;
        }
        any_pieces(harness, random, afi, &run)?;
    }
    Ok(())
}

/// A run where every third NLRI is of an unknown type, and some are disturbed.
fn any_run(harness: &mut Harness, random: &mut Random, round: u64) -> Checked {
    let afi = near::afi(random);
    let run = near::joined(random, (round % 17) as usize, 16, |random| match random.once_in(3) {
        true => near::unknown(random),
        false => near::nlri(random, afi),
    });
    harness.inputs += 1;
    harness.walk_by_steps(afi, &run)?;
    if round.is_multiple_of(4) {
        let (mode, ends) = (random.pick(&MODES), any_ends(random, run.len()));
        let walked = harness.walk(afi, mode, &run)?;
        let (_, in_pieces) = read(harness, random, afi, mode, pieces(&run, &ends))?;
        in_papers(format!("walk and pieces (afi {afi}, mode {mode}, cut at {ends:?})"), in_pieces, walked)?;
    }
    Ok(())
}
