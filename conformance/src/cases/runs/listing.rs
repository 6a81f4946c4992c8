//! The listing program, with `old` as its only argument and otherwise: its whole output and exit status beside the second
//! decoder's text.

use super::skips::LISTINGS;
use crate::{
    cases::{
        discards,
        document::{in_papers, LISTED},
        fecs,
        inputs::{
            near,
            samples::{discarded, nlris},
        },
    },
    compare::{disagree, Checked, Disagreement, Harness},
    hexadecimal::{encode, octets},
    random::Random,
};
use std::{
    ffi::OsStr,
    io::{self, Write},
    os::unix::ffi::OsStrExt,
    process::{Child, Command, Stdio},
    thread::sleep,
    time::Duration,
};

/// A run for each refusal, 1 to 5, 7 and 19, behind one well-formed NLRI.
const REFUSALS: [&str; 11] = [
    "03",
    "0305 00",
    "0900",
    "0300",
    "0309 0000006400000007 18",
    "0400",
    "0401 05",
    "0905 00",
    "470D 0000006400000007 0000FDE8 09",
    "4400",
    "0512 0000006400000007 20 C0000201 20 E8010101",
];

const RANDOM_RUNS: usize = 250;

pub fn all(harness: &mut Harness, random: &mut Random, program: &str) -> Checked {
    for (shows, arguments, run, text) in LISTINGS.iter().chain(&discards::examples::LISTINGS) {
        let listed = output(program, arguments, &octets(run), &Pace::Whole)?;
        in_papers(format!("document 02, listing, {shows}"), listed, text.to_string())?;
    }
    let listed = output(program, SKIPPING, &octets(fecs::examples::LISTED), &Pace::Whole)?;
    in_papers("document 02, W-207, the listing".into(), listed, fecs::examples::LISTED_TEXT.to_string())?;
    let whole = nlris(1).into_iter().flat_map(|sample| sample.octets).collect::<Vec<u8>>();
    for (number, run) in fixed_runs(random, &whole).into_iter().enumerate() {
        let mut ways = [SKIPPING, OLD];
        ways.rotate_left(number % 2);
        compare(harness, program, ways[0], &run, &Pace::Whole)?;
        compare(harness, program, ways[1], &run, &Pace::Pieces(1 + run.len() / 9))?;
    }
    for arguments in [SKIPPING, OLD] {
        compare(harness, program, arguments, &octets(LISTED), &Pace::Pieces(1))?;
    }
    for number in 0..RANDOM_RUNS {
        let run = random_run(random);
        let pace = if number % 5 == 0 { Pace::Pieces(1 + random.below(200)) } else { Pace::Whole };
        let arguments = random.pick(&[SKIPPING, SKIPPING, OLD, &[b"old", b"old"]]);
        compare(harness, program, arguments, &run, &pace)?;
    }
    Ok(())
}

/// Empty, each refusal, each sample, also between discarded ones, and sizes about the limit.
fn fixed_runs(random: &mut Random, whole: &[u8]) -> Vec<Vec<u8>> {
    let mut runs = vec![Vec::new(), whole.to_vec(), octets(LISTED)];
    let between = nlris(1).into_iter().flat_map(|sample| [discarded(1).octets, sample.octets]);
    runs.push(between.flatten().collect());
    runs.extend(REFUSALS.map(octets));
    runs.extend(REFUSALS.map(|refused| [whole, &octets(refused)].concat()));
    for size in [4_094, 4_095, 4_096, 4_097, 4_098, 8_192, 10_000, 70_000] {
        runs.push(near::run_of(random, 1, size));
        runs.push(vec![0; size]);
    }
    runs
}

fn random_run(random: &mut Random) -> Vec<u8> {
    if random.once_in(6) {
        let size = random.below(5_000);
        return random.octets(size);
    }
    let count = random.below(60);
    let mut run = Vec::new();
    for _ in 0..count {
        let mut octets = near::item(random, 1);
        if random.once_in(20) {
            near::disturb_nlri(random, &mut octets);
        }
        run.extend(octets);
    }
    run
}

/// The program's arguments.
type Arguments = &'static [&'static [u8]];

const SKIPPING: Arguments = &[];
const OLD: Arguments = &[b"old"];

/// How standard input is fed: at once, or in pieces with a pause after each.
enum Pace {
    Whole,
    Pieces(usize),
}

fn compare(harness: &mut Harness, program: &str, arguments: Arguments, run: &[u8], pace: &Pace) -> Checked {
    harness.inputs += 1;
    harness.calls += 1;
    let second = harness.second.listing(arguments, run);
    let archive = output(program, arguments, run, pace)?;
    match archive == second {
        true => Ok(()),
        false => disagree(called(arguments, run), archive, second),
    }
}

fn called(arguments: Arguments, run: &[u8]) -> String {
    let shown: Vec<_> = arguments.iter().map(|argument| String::from_utf8_lossy(argument)).collect();
    format!("listing with the arguments {shown:?} of {}", encode(run))
}

/// The program's standard output; its exit status must be 0.
fn output(program: &str, arguments: Arguments, run: &[u8], pace: &Pace) -> Result<String, Disagreement> {
    let failed =
        |what: String| Disagreement { call: called(arguments, run), archive: what, second: "exit status 0".into() };
    let mut child = Command::new(program)
        .args(arguments.iter().map(|argument| OsStr::from_bytes(argument)))
        .stdin(Stdio::piped())
        .stdout(Stdio::piped())
        .spawn()
        .map_err(|error| failed(format!("cannot start {program}: {error}")))?;
    feed(&mut child, run, pace).map_err(|error| failed(format!("cannot feed standard input: {error}")))?;
    let output = child.wait_with_output().map_err(|error| failed(error.to_string()))?;
    if !output.status.success() {
        return Err(failed(format!("{}", output.status)));
    }
    Ok(String::from_utf8_lossy(&output.stdout).into_owned())
}

/// Writes the run and closes the pipe. A program that has seen enough may close its end first.
fn feed(child: &mut Child, run: &[u8], pace: &Pace) -> io::Result<()> {
    let mut pipe = child.stdin.take().expect("standard input is piped");
    let result = match pace {
        Pace::Whole => pipe.write_all(run),
        Pace::Pieces(size) => run.chunks(*size).try_for_each(|piece| {
            pipe.write_all(piece)?;
            pipe.flush()?;
            sleep(Duration::from_micros(300));
            Ok(())
        }),
    };
    match result {
        Err(error) if error.kind() == io::ErrorKind::BrokenPipe => Ok(()),
        other => other,
    }
}
