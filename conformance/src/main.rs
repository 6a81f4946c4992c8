//! Compares the archive `libmvpn.a` with an independent second decoder, call by call.
//!
//! ```text
//! conformance [--seed N] [--cases N] [--listing PATH] [--outside] [--fault NAME | --every-fault] [--list-faults]
//! ```
//!
//! README.md says what is compared, what the arguments mean and what a failure shows.

use conformance::{
    cases,
    compare::Harness,
    coverage::LEAST,
    options::Options,
    second::{
        fault::{Fault, ShownBy},
        Second,
    },
};
use std::{env, process::ExitCode, time::Instant};

fn main() -> ExitCode {
    let options = match Options::parse(env::args().skip(1)) {
        Ok(options) => options,
        Err(message) => {
            eprintln!("conformance: {message}");
            return ExitCode::from(2);
        }
    };
    if options.list_faults {
        Fault::ALL.iter().for_each(|fault| println!("{}: {}", fault.name(), fault.does));
        return ExitCode::SUCCESS;
    }
    println!("seed {}, random cases {}", options.seed, options.cases);
    let passed = match options.fault {
        _ if options.every_fault => agrees(&options) && every_fault(&options),
        Some(fault) => agrees(&options) && finds(&options, fault),
        None => compare(&options),
    };
    if passed {
        ExitCode::SUCCESS
    } else {
        ExitCode::FAILURE
    }
}

/// The comparison without fault, and its coverage.
fn compare(options: &Options) -> bool {
    let start = Instant::now();
    let mut harness = Harness::new(Second::sound());
    let result = cases::all(&mut harness, options);
    print!("{}", harness.coverage.report());
    let seconds = start.elapsed().as_secs_f64();
    println!("{} calls compared in sequences", harness.sequence_calls);
    println!("{} inputs, {} calls compared, {seconds:.1} seconds", harness.inputs, harness.calls);
    if let Err(disagreement) = result {
        println!("DISAGREEMENT\n{disagreement}");
        return false;
    }
    let unmet = harness.coverage.unmet();
    for ((call, seen), count) in &unmet {
        println!("NOT COVERED: {call:?} {seen:?} met {count} times, fewer than {LEAST}");
    }
    if unmet.is_empty() {
        println!("no disagreement");
    }
    unmet.is_empty()
}

/// Whether the decoder without fault agrees throughout: only then is a disagreement the fault's.
fn agrees(options: &Options) -> bool {
    match cases::all(&mut Harness::new(Second::sound()), options) {
        Ok(()) => true,
        Err(disagreement) => {
            println!("DISAGREEMENT without any fault\n{disagreement}");
            false
        }
    }
}

/// Whether the comparison notices the fault, on the calls that it concerns.
fn finds(options: &Options, fault: Fault) -> bool {
    let mut harness = Harness::new(Second::with_fault(fault));
    let result = match fault.shown_by {
        ShownBy::Tables => cases::of_tables(&mut harness, options),
        ShownBy::Restarts => cases::of_restarts(&mut harness, options),
        ShownBy::Prefixes => cases::of_prefixes(&mut harness, options),
        ShownBy::Explanations => cases::of_explanations(&mut harness, options),
        ShownBy::Plans => cases::of_plans(&mut harness, options),
        ShownBy::Following => cases::of_following(&mut harness, options),
        ShownBy::Salvage => cases::of_salvage(&mut harness, options),
        ShownBy::SharedTrees => cases::of_shared_trees(&mut harness, options),
        ShownBy::Bier => cases::of_bier(&mut harness, options),
        ShownBy::Disturbance => cases::of_disturbance(&mut harness, options),
        ShownBy::Splitting => cases::of_splitting(&mut harness, options),
        ShownBy::Encodings => cases::of_encodings(&mut harness, options),
        ShownBy::Skips => cases::of_skips(&mut harness, options),
        ShownBy::Fecs => cases::of_fecs(&mut harness, options),
        ShownBy::Pieces => cases::of_pieces(&mut harness, options),
        ShownBy::Discards => cases::of_discards(&mut harness, options),
    };
    let name = fault.name();
    match result {
        Err(disagreement) => {
            println!("{name} found after {} calls compared", harness.calls);
            if !options.every_fault {
                println!("{disagreement}");
            }
            true
        }
        Ok(()) => {
            println!("{name} NOT FOUND in {} calls", harness.calls);
            false
        }
    }
}

/// Each fault in turn; all must be found.
fn every_fault(options: &Options) -> bool {
    let faults = Fault::ALL;
    let found = faults.iter().filter(|fault| finds(options, **fault)).count();
    println!("{found} of {} faults found", faults.len());
    found == faults.len()
}
