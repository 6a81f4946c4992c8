//! The archive's calls beside the same work in plain Rust (`src/plain`): each one's cost, and their ratio. The rows of the
//! table's calls also give the ratio to `memcmp` of as many octets as the table has, which reads two such buffers, and to
//! reading the table's octets once.
//!
//! Both calls take the same buffers, through a function pointer. There are three kinds of rows:
//!
//! - in instructions, which `count` has from callgrind: calls of a few nanoseconds, whose time depends on where their code
//!   lies (on one NLRI, attribute or group, on a table of at most one place, and a bit string of no Leaves);
//! - in nanoseconds, warm and learnt: the same call again and again, in batches that alternate; the best batch counts;
//! - in nanoseconds, not learnt: many inputs in ever new orders, so that the processor cannot foretell the branches.
//!
//! `--rounds N` makes N rounds. The run ends with status 1 only where the two give different answers.

mod bier;
mod count;
mod explain;
mod following;
mod measure;
mod pieces;
mod plan;
mod planning;
mod prefixes;
mod report;
mod restarts;
mod routes;
mod salvage;
mod shared;
mod table;
mod unlearnt;

use conformance::{
    cases::inputs::{
        near,
        samples::{attributes, mldp, nlris, Sample, GOOD_AFIS},
    },
    ffi::{raw, Stepped},
    options::SEED,
    plain,
    random::Random,
    second::runs::run::SKIP,
};
use measure::Clock;
use report::{Report, Task};
use std::{arch::global_asm, env, hint::black_box, process::ExitCode};

const ROUNDS: usize = 1_500;

// Moves the archive's code and plain Rust's, which the linker puts behind it: the time of a short loop depends on where it
// lies in the lines of the cache.
global_asm!(".globl bench_shift", "bench_shift:", concat!(".skip ", env!("BENCH_SHIFT")), "ret");

extern "C" {
    fn bench_shift();
}

/// Octets of a writer's output, more than any encoding.
const ROOM: usize = 256;

/// Octets of the runs, the most that a run may have.
const RUN: usize = 4_096;

fn main() -> ExitCode {
    // Or the linker would leave it out.
    black_box(bench_shift as *const ());
    let arguments: Vec<String> = env::args().skip(1).collect();
    let arguments: Vec<&str> = arguments.iter().map(String::as_str).collect();
    let rounds = match arguments[..] {
        [] => ROUNDS,
        ["--rounds", number] => number.parse().unwrap_or(0),
        [count::COUNTING] => return all_rows(Task::Count),
        _ => 0,
    };
    if rounds == 0 {
        eprintln!("bench: its only argument is --rounds N, with N over 0");
        return ExitCode::FAILURE;
    }
    let counts = count::counts().unwrap_or_else(|why| {
        println!("no instructions are counted: {why}");
        Default::default()
    });
    all_rows(Task::Print(Clock { rounds }, counts))
}

fn all_rows(task: Task) -> ExitCode {
    let mut report = Report::begin(task);
    for afi in GOOD_AFIS {
        let mut random = Random::new(SEED);
        let run = whole_run(&mut random, afi);
        runs(&mut report, afi, &run);
        walk(&mut report, &format!("walk of {RUN} octets, afi {afi}"), afi, &run);
        let run_with_unknown = unknown_among(&mut random, afi);
        walk(&mut report, &format!("walk of {RUN} octets with unknown types, afi {afi}"), afi, &run_with_unknown);
        pieces::rows(&mut report, afi, &run);
        for sample in one_of_each_type(afi) {
            nlri(&mut report, &sample, "");
        }
        for depth in [1, 4] {
            for sample in longest_of(mldp(afi, depth), [0x43, 0x44, 0x47]) {
                nlri(&mut report, &sample, &format!("depth {depth}, "));
            }
        }
    }
    for attribute in one_of_each_form() {
        tunnel(&mut report, &attribute);
    }
    table::rows(&mut report);
    prefixes::rows(&mut report);
    restarts::rows(&mut report);
    explain::rows(&mut report);
    plan::rows(&mut report);
    following::rows(&mut report);
    salvage::rows(&mut report);
    shared::rows(&mut report);
    bier::rows(&mut report);
    planning::rows(&mut report);
    unlearnt::rows(&mut report);
    if report.end() {
        ExitCode::SUCCESS
    } else {
        ExitCode::FAILURE
    }
}

/// One step; the steps through a whole run of mixed types.
fn runs(report: &mut Report, afi: u16, run: &[u8]) {
    let calls = black_box(STEPS);
    report.counted(
        &format!("step, afi {afi}"),
        calls.map(|call| move || unsafe { call(afi, run.as_ptr(), run.len(), black_box(0)) }),
    );
    report.timed(
        &format!("steps through {RUN} octets, afi {afi}"),
        calls.map(|call| move || steps(call, afi, black_box(run))),
    );
}

/// A walk that skips unknown types.
fn walk(report: &mut Report, name: &str, afi: u16, run: &[u8]) {
    report.timed(
        name,
        black_box(WALKS).map(|call| move || unsafe { call(afi, SKIP, run.as_ptr(), black_box(run.len())) }),
    );
}

const STEPS: [raw::Step; 2] = [raw::mvpn_step, plain::step];
const WALKS: [raw::Walk; 2] = [raw::mvpn_walk, plain::walk];

/// Steps from the run's beginning until a step reads nothing.
fn steps(call: raw::Step, afi: u16, run: &[u8]) -> Stepped {
    let mut cursor = 0;
    loop {
        let stepped = unsafe { call(afi, run.as_ptr(), run.len(), cursor) };
        if stepped.cursor == cursor {
            return stepped;
        }
        cursor = stepped.cursor;
    }
}

/// Well-formed NLRIs of types 1 to 7 that fill the run exactly, so that the walk reaches its end.
fn whole_run(random: &mut Random, afi: u16) -> Vec<u8> {
    let samples: Vec<Sample> = nlris(afi).into_iter().filter(|sample| sample.nlri.route_type <= 7).collect();
    loop {
        let run = near::run_among(random, &samples, RUN);
        if unsafe { plain::walk(afi, SKIP, run.as_ptr(), run.len()) }.number == 0 {
            return run;
        }
    }
}

/// A run whose every third NLRI, or so, is of an unknown type.
fn unknown_among(random: &mut Random, afi: u16) -> Vec<u8> {
    let mut run = whole_run(random, afi);
    let mut at = 0;
    while at < run.len() {
        let size = 2 + usize::from(run[at + 1]);
        if random.once_in(3) {
            run[at] = random.pick(&near::UNKNOWN);
        }
        at += size;
    }
    run
}

fn nlri(report: &mut Report, sample: &Sample, depth: &str) {
    let Sample { afi, octets, nlri, key, fec } = sample;
    let (afi, nlri, octets, key, fec) = (*afi, *nlri, &octets[..], &key[..], &fec[..]);
    let name = format!("afi {afi}, type {}, {depth}{} octets", nlri.route_type, octets.len());
    let calls = black_box([raw::mvpn_nlri_read as raw::NlriRead, plain::nlri_read]);
    report.counted(
        &format!("nlri_read {name}"),
        calls.map(|call| move || unsafe { call(afi, octets.as_ptr(), black_box(octets.len())) }),
    );
    let mut buffer = [0u8; ROOM];
    let output = buffer.as_mut_ptr();
    let calls = black_box([raw::mvpn_nlri_write as raw::NlriWrite, plain::nlri_write]);
    let writes = calls.map(|call| {
        move || unsafe {
            let (key, key_size) = (key.as_ptr(), black_box(key.len()));
            call(afi, nlri, key, key_size, fec.as_ptr(), black_box(fec.len()), black_box(output), ROOM)
        }
    });
    report.counted(&format!("nlri_write {name}"), writes);
    report.check_output(&writes, output, ROOM, octets, &name);
}

fn tunnel(report: &mut Report, attribute: &[u8]) {
    let name = format!("tunnel type {}, {} octets", attribute[1], attribute.len());
    let calls = black_box([raw::mvpn_attribute_read as raw::AttributeRead, plain::attribute_read]);
    report.counted(
        &format!("attribute_read {name}"),
        calls.map(|call| move || unsafe { call(attribute.as_ptr(), black_box(attribute.len())) }),
    );
    let mut buffer = [0u8; ROOM];
    let output = buffer.as_mut_ptr();
    let (flags, tunnel_type, identifier) = (attribute[0], attribute[1], &attribute[5..]);
    let label_field = u32::from_be_bytes([0, attribute[2], attribute[3], attribute[4]]);
    let calls = black_box([raw::mvpn_attribute_write as raw::AttributeWrite, plain::attribute_write]);
    let writes = calls.map(|call| {
        move || unsafe {
            let size = black_box(identifier.len());
            call(flags, tunnel_type, label_field, identifier.as_ptr(), size, black_box(output), ROOM)
        }
    });
    report.counted(&format!("attribute_write {name}"), writes);
    report.check_output(&writes, output, ROOM, attribute, &name);
}

/// The longest sample of each route type without a FEC element.
fn one_of_each_type(afi: u16) -> Vec<Sample> {
    longest_of(nlris(afi), 1..=7)
}

/// The longest of these samples of each route type.
fn longest_of(samples: Vec<Sample>, types: impl IntoIterator<Item = u8>) -> Vec<Sample> {
    let longest = |route_type| {
        let samples = samples.iter().filter(|sample| sample.nlri.route_type == route_type);
        samples.max_by_key(|sample| sample.octets.len()).cloned()
    };
    types.into_iter().filter_map(longest).collect()
}

/// The first and the last sample of each tunnel type: its shortest and longest identifier.
fn one_of_each_form() -> Vec<Vec<u8>> {
    let of_type = |tunnel_type| {
        let samples: Vec<_> = attributes().into_iter().filter(|sample| sample[1] == tunnel_type).collect();
        let mut ends: Vec<_> = samples.first().into_iter().chain(samples.last()).cloned().collect();
        ends.dedup();
        ends
    };
    [0, 1, 2, 3, 4, 5, 6, 7, 11].into_iter().flat_map(of_type).collect()
}
