//! Runs that arrive in pieces, in both modes (document 02, W-203): examples with their answers, every cut of short runs, any cut of any run,
//! totals about 4,096 octets, and states that no call made.

use crate::{
    cases::{
        document::{in_papers, RD},
        inputs::{
            near,
            samples::{mldp, nlris, BAD_AFIS, GOOD_AFIS},
        },
    },
    compare::{pieces::Reader, run::MODES, Checked, Disagreement, Harness, Input},
    ffi::{Pieces, Walked},
    hexadecimal::octets,
    random::Random,
    second::runs::run::{OLD, SKIP},
};

/// What it shows, AFI, the pieces with bars between them and `RD` for the distinguisher, the NLRIs given, and the number, count
/// and offset of the walk in the old mode.
type Example = (&'static str, u16, &'static str, &'static [&'static str], [u32; 3]);

pub const EXAMPLES: [Example; 20] = [
    ("no octets", 1, "", &[], [0, 0, 0]),
    ("pieces of no octets", 2, "||", &[], [0, 0, 0]),
    ("one octet", 1, "03", &[], [1, 0, 0]),
    ("a whole NLRI", 1, "030E RD 00 00 0A000001", &["030E RD 00 00 0A000001"], [0, 1, 16]),
    ("the listing's run", 1, "030E RD 00 00 0A000001 0900", &["030E RD 00 00 0A000001"], [2, 1, 16]),
    ("cut in its header", 1, "03|0E RD 00 00 0A000001 0900", &["030E RD 00 00 0A000001"], [2, 1, 16]),
    ("cut behind its header", 1, "030E|RD 00 00 0A000001 0900", &["030E RD 00 00 0A000001"], [2, 1, 16]),
    ("cut before its last octet", 1, "030E RD 00 00 0A0000|01 0900", &["030E RD 00 00 0A000001"], [2, 1, 16]),
    ("cut between two", 1, "030E RD 00 00 0A000001|0900", &["030E RD 00 00 0A000001"], [2, 1, 16]),
    ("cut in a refused header", 1, "030E RD 00 00 0A000001 09|00", &["030E RD 00 00 0A000001"], [2, 1, 16]),
    ("a piece of none inside an NLRI", 1, "030E RD||00 00 0A000001", &["030E RD 00 00 0A000001"], [0, 1, 16]),
    ("SHORT only at finish", 1, "030E RD 00 00|0A0000", &[], [1, 0, 0]),
    ("two in one piece", 2, "020C RD 0000FDE8 010C RD 0A000001", &["020C RD 0000FDE8", "010C RD 0A000001"], [0, 2, 28]),
    (
        "two in three pieces",
        1,
        "020C RD|0000FDE8 010C RD|0A000001",
        &["020C RD 0000FDE8", "010C RD 0A000001"],
        [0, 2, 28],
    ),
    ("nothing is read after a stop", 1, "0900|020C RD 0000FDE8", &[], [2, 0, 0]),
    ("nor in the same piece", 1, "0300 020C RD 0000FDE8", &[], [3, 0, 0]),
    ("a bad type is judged when it is whole", 1, "0905 00|00", &[], [1, 0, 0]),
    ("WIDTH", 1, "020C RD 0000FDE8 0309 RD|18", &["020C RD 0000FDE8"], [4, 1, 14]),
    ("KEY", 1, "04|00 020C RD 0000FDE8", &[], [5, 0, 0]),
    ("a bad AFI", 3, "020C RD 0000FDE8", &[], [10, 0, 0]),
];

/// Short runs for every cut: AFI, octets.
const SHORT_RUNS: [(u16, &str); 10] = [
    (1, "030E RD 00 00 0A000001 0900"),
    (1, "020C RD 0000FDE8 010C RD 0A000001"),
    (1, "0412 020C RD 0000FDE8 0A000001 03"),
    (1, "0300 020C RD 0000FDE8"),
    (1, "020C RD 0000FDE8 0309 RD 18 020C RD 0000FDE8"),
    (1, "020C RD 0000FDE8 0400 0900"),
    (1, "0905 00 020C"),
    (1, "0316 RD 20 C0000201 20 E8010101 0A000001 030E RD 00 00 0A000001"),
    (2, "030E RD 00 00 0A000001 012E RD"),
    (2, "0905 0102030405 0118 RD 20010DB8000000000000000000000001"),
];

/// Octets that are refused, 2 to 5 and 7.
const REFUSED: [&str; 5] = ["0900", "0300", "0309 0000006400000007 18", "0400", "470D 0000006400000007 0000FDE8 09"];

/// Octets of the run that stand behind a piece.
const AFTER: usize = 40;

/// The most octets of a run.
const LONGEST: usize = 4_096;

/// Random runs: so many, and one more for so many random cases.
const ROUNDS: u64 = 600;
const CASES_A_ROUND: u64 = 1_000;

const FORGED: usize = 6_000;

pub fn all(harness: &mut Harness, random: &mut Random, cases: u64) -> Checked {
    examples(harness, random)?;
    bad_afis(harness, random)?;
    for afi in GOOD_AFIS {
        totals(harness, random, afi)?;
    }
    for (afi, run) in SHORT_RUNS {
        every_cut(harness, random, afi, &octets(&run.replace("RD", RD)))?;
    }
    for afi in GOOD_AFIS {
        samples(harness, random, afi)?;
        elements(harness, random, afi)?;
        octet_by_octet(harness, random, afi)?;
    }
    for round in 0..ROUNDS + cases / CASES_A_ROUND {
        any_run(harness, random, round)?;
    }
    two_readers(harness, random)?;
    (0..FORGED).try_for_each(|_| forged(harness, random))
}

fn start(harness: &mut Harness, random: &mut Random, afi: u16, mode: u32) -> Result<Reader, Disagreement> {
    harness.inputs += 1;
    harness.pieces_start(afi, mode, random.array())
}

/// Hands the pieces over and finishes; then all of it repeats the answer.
pub fn read<'a>(
    harness: &mut Harness,
    random: &mut Random,
    afi: u16,
    mode: u32,
    pieces: impl IntoIterator<Item = Input<'a>>,
) -> Result<(Reader, Walked), Disagreement> {
    let mut reader = start(harness, random, afi, mode)?;
    pieces.into_iter().try_for_each(|piece| harness.pieces_hand_over(&mut reader, piece))?;
    let walked = harness.pieces_finish(&mut reader)?;
    if random.once_in(4) {
        repeated(harness, random, &mut reader)?;
    }
    Ok((reader, walked))
}

/// The same in any mode.
fn read_any_mode<'a>(
    harness: &mut Harness,
    random: &mut Random,
    afi: u16,
    pieces: impl IntoIterator<Item = Input<'a>>,
) -> Checked {
    let mode = random.pick(&MODES);
    read(harness, random, afi, mode, pieces).map(drop)
}

/// Finish once more, feeds of none, of an NLRI and of too many octets, and finish again.
fn repeated(harness: &mut Harness, random: &mut Random, reader: &mut Reader) -> Checked {
    harness.pieces_finish(reader)?;
    let afi = random.pick(&GOOD_AFIS);
    for piece in [Vec::new(), near::run_of(random, afi, 60), vec![0; LONGEST + 1]] {
        harness.pieces_feed(reader, &piece)?;
    }
    harness.pieces_finish(reader).map(drop)
}

/// The run between these places of it, each piece with the next octets standing behind it.
pub fn pieces<'a>(run: &'a [u8], ends: &[usize]) -> Vec<Input<'a>> {
    let starts = [0].into_iter().chain(ends.iter().copied());
    let piece = |(start, end): (usize, &usize)| Input::cut(&run[start..run.len().min(end + AFTER)], end - start);
    starts.zip(ends).map(piece).collect()
}

fn examples(harness: &mut Harness, random: &mut Random) -> Checked {
    for (shows, afi, text, given, [number, count, offset]) in EXAMPLES {
        let decoded = |text: &str| octets(&text.replace("RD", RD));
        let parts: Vec<Vec<u8>> = text.split('|').map(decoded).collect();
        let (reader, walked) = read(harness, random, afi, OLD, parts.iter().map(Input::from))?;
        let asked = (given.iter().map(|text| decoded(text)).collect(), Walked { number, count, offset, skipped: 0 });
        in_papers(format!("document 02, W-203, {shows}"), (reader.given, walked), asked)?;
    }
    Ok(())
}

/// A run in any pieces, in both modes.
pub fn any_pieces(harness: &mut Harness, random: &mut Random, afi: u16, run: &[u8]) -> Checked {
    for mode in MODES {
        let ends = any_ends(random, run.len());
        read(harness, random, afi, mode, pieces(run, &ends))?;
    }
    Ok(())
}

/// The run in one piece, in two and in three, wherever it is cut; and what the walk of each mode says of it.
pub fn every_cut(harness: &mut Harness, random: &mut Random, afi: u16, run: &[u8]) -> Checked {
    for mode in [SKIP, OLD] {
        let walked = harness.walk(afi, mode, run)?;
        for (first, second) in (0..=run.len()).flat_map(|first| (first..=run.len()).map(move |second| (first, second)))
        {
            let (_, in_pieces) = read(harness, random, afi, mode, pieces(run, &[first, second, run.len()]))?;
            let shows = format!("walk and pieces (afi {afi}, mode {mode}, cut at {first} and {second})");
            in_papers(shows, in_pieces, walked)?;
        }
    }
    Ok(())
}

fn bad_afis(harness: &mut Harness, random: &mut Random) -> Checked {
    for (afi, size) in BAD_AFIS.into_iter().flat_map(|afi| [0, 1, 60, LONGEST, LONGEST + 1].map(|size| (afi, size))) {
        let run = near::run_of(random, 1, size);
        for _ in 0..8 {
            let ends = any_ends(random, size);
            read_any_mode(harness, random, afi, pieces(&run, &ends))?;
        }
    }
    Ok(())
}

/// Every sample octet by octet, and one after the other in pieces that end within each of them.
fn samples(harness: &mut Harness, random: &mut Random, afi: u16) -> Checked {
    let samples: Vec<Vec<u8>> = nlris(afi).into_iter().map(|sample| sample.octets).collect();
    for sample in &samples {
        let ends: Vec<usize> = (1..=sample.len()).collect();
        read_any_mode(harness, random, afi, pieces(sample, &ends))?;
    }
    let run = samples.concat();
    for size in 1..=80 {
        let ends: Vec<usize> = (0..=run.len()).step_by(size).chain([run.len()]).collect();
        read_any_mode(harness, random, afi, pieces(&run, &ends))?;
    }
    // Finished at every place, whatever has come by then.
    for end in 0..=run.len() {
        let middle = random.below(end + 1);
        read_any_mode(harness, random, afi, pieces(&run, &[middle, end]))?;
    }
    Ok(())
}

/// FEC elements, and one too many, between other NLRIs.
fn elements(harness: &mut Harness, random: &mut Random, afi: u16) -> Checked {
    for sample in [4, 5].into_iter().flat_map(|depth| mldp(afi, depth)) {
        let run = [near::of_type(random, afi, 2), sample.octets, near::item(random, afi)].concat();
        for _ in 0..20 {
            let ends = any_ends(random, run.len());
            read_any_mode(harness, random, afi, pieces(&run, &ends))?;
        }
    }
    Ok(())
}

/// Runs of octets about the most, without a stop and with one at the front or further back, in a few large pieces, in ones
/// that end about the most, and in any; octets go on coming afterwards.
fn totals(harness: &mut Harness, random: &mut Random, afi: u16) -> Checked {
    for size in [4_097, 4_096, 4_095, 4_098, 8_192, 70_000] {
        for stop in [None, Some(0), Some(100), Some(3_000), Some(4_080)] {
            let run = long_run(random, afi, size, stop);
            let about = [3_999, 4_000, 4_093, 4_094, 4_095, 4_096, 4_096, 4_097];
            let last: Vec<usize> = about.into_iter().filter(|end| *end <= size).chain([size, size]).collect();
            let thousands: Vec<usize> = (0..size).step_by(1_000).skip(1).chain([size]).collect();
            for ends in [vec![size - 1, size], last, thousands, vec![size]] {
                read_any_mode(harness, random, afi, pieces(&run, &ends))?;
            }
            if size <= LONGEST + 2 {
                let ends = any_ends(random, size);
                read_any_mode(harness, random, afi, pieces(&run, &ends))?;
            }
        }
    }
    Ok(())
}

/// The longest runs, and one that is too long.
fn octet_by_octet(harness: &mut Harness, random: &mut Random, afi: u16) -> Checked {
    for size in [LONGEST - 1, LONGEST, LONGEST + 1] {
        let run = long_run(random, afi, size, None);
        let ends: Vec<usize> = (1..=size).collect();
        read_any_mode(harness, random, afi, pieces(&run, &ends))?;
    }
    Ok(())
}

/// Well-formed NLRIs and, behind so many octets of them, a refused one.
fn long_run(random: &mut Random, afi: u16, size: usize, stop: Option<usize>) -> Vec<u8> {
    let samples = nlris(afi);
    let mut run: Vec<u8> = Vec::new();
    while run.len() < stop.unwrap_or(size) {
        run.extend(&samples[random.below(samples.len())].octets);
    }
    run.extend(octets(random.pick(&REFUSED)));
    run.extend(near::run_of(random, afi, size));
    run.truncate(size);
    run
}

/// Places to cut a run at: octet by octet, or pieces of up to a few, some or many octets, none among them.
pub fn any_ends(random: &mut Random, size: usize) -> Vec<usize> {
    let most = match size {
        0..300 => random.pick(&[1, 2, 8, 60, 300]),
        _ => random.pick(&[60, 300, 4_000]),
    };
    if most == 1 {
        return (1..=size).collect();
    }
    let mut ends = Vec::new();
    let mut end = 0;
    while end < size {
        end = size.min(end + random.below(most + 1));
        ends.push(end);
    }
    ends.extend(random.once_in(2).then_some(size));
    ends
}

/// A run of up to a dozen NLRIs near to well-formed ones, or of any octets, in any pieces.
fn any_run(harness: &mut Harness, random: &mut Random, round: u64) -> Checked {
    let afi = near::afi(random);
    let mut run = Vec::new();
    for _ in 0..round % 13 {
        let mut octets = near::item(random, afi);
        if random.once_in(10) {
            near::disturb_nlri(random, &mut octets);
        }
        run.extend(octets);
    }
    if random.once_in(10) {
        let size = random.below(300);
        run = random.octets(size);
    }
    let mode = random.pick(&MODES);
    let walked = harness.walk(afi, mode, &run)?;
    let ends = any_ends(random, run.len());
    let (_, in_pieces) = read(harness, random, afi, mode, pieces(&run, &ends))?;
    in_papers(format!("walk and pieces (afi {afi}, mode {mode}, cut at {ends:?})"), in_pieces, walked)
}

/// Two readers that take turns: what one keeps is nothing to the other.
fn two_readers(harness: &mut Harness, random: &mut Random) -> Checked {
    for _ in 0..50 {
        let runs = GOOD_AFIS.map(|afi| near::run_of(random, afi, 400));
        let [first, second] = [(1, SKIP), (2, OLD)].map(|(afi, mode)| start(harness, random, afi, mode));
        let mut readers = [first?, second?];
        let most = 1 + random.below(40);
        for at in (0..400).step_by(most) {
            for (reader, run) in readers.iter_mut().zip(&runs) {
                harness.pieces_hand_over(reader, &run[at..400.min(at + most)])?;
            }
        }
        readers.iter_mut().try_for_each(|reader| harness.pieces_finish(reader).map(drop))?;
    }
    Ok(())
}

/// Numbers about every limit, and any.
fn any_number(random: &mut Random) -> u32 {
    let edges = [0, 1, 2, 3, 4, 5, 8, 10, 255, 256, 257, 258, 259, 4_095, 4_096, 4_097, 65_535, 65_536, u32::MAX];
    match random.once_in(4) {
        true => random.number() as u32,
        false => random.pick(&edges),
    }
}

fn forged(harness: &mut Harness, random: &mut Random) -> Checked {
    harness.inputs += 1;
    let [number, count, offset, skipped, afi, mode, stage, total, kept] = [0; 9].map(|_| any_number(random));
    let size = random.pick(&[0, 1, 2, 16, 255, 256, 257, 258, 300, 4_096, 5_000]);
    let mut piece = random.octets(size);
    if random.once_in(2) {
        piece = near::run_of(random, 1, size);
    }
    let walked = Walked { number, count, offset, skipped };
    let pieces = Pieces { walked, afi, mode, stage, total, kept };
    harness.pieces_forged(pieces, random.array(), &piece)
}
