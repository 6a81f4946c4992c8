//! Counts the instructions of calls, from a call's first instruction to its return, with valgrind's callgrind.
//!
//! The program runs itself under callgrind with the argument `COUNTING`. That run makes each call of each counted row once,
//! between two marks; callgrind writes a file for each, with the instructions inside the call, and what it calls, alone.

use std::{
    collections::HashMap,
    env, fs,
    hint::black_box,
    io::ErrorKind,
    path::Path,
    process::{Command, Output},
};

/// The argument of the run whose calls are counted.
pub const COUNTING: &str = "--counting";

/// The functions that callgrind looks inside. None of them calls another one.
const COUNTED: [&str; 16] = [
    "mvpn_*",
    "conformance::plain::nlri_read::nlri_read",
    "conformance::plain::nlri_write::nlri_write",
    "conformance::plain::run::step",
    "conformance::plain::run::walk",
    "conformance::plain::group::group_class",
    "conformance::plain::attribute::attribute_read",
    "conformance::plain::attribute::attribute_write",
    "conformance::plain::table::make",
    "conformance::plain::table::install",
    "conformance::plain::table::withdraw",
    "conformance::plain::flow::match_flow",
    "conformance::plain::explain::explain",
    "conformance::plain::following::next",
    "conformance::plain::following::table_info",
    "conformance::plain::bier::bier_string",
];

/// The instructions of archive and plain Rust for each counted row, by its name.
pub type Counts = HashMap<String, [u64; 2]>;

// The marks' names are callgrind's arguments; their bodies differ, so that they stay two functions.
#[no_mangle]
#[inline(never)]
extern "C" fn count_begins() {
    black_box(0);
}

#[no_mangle]
#[inline(never)]
extern "C" fn count_ends() {
    black_box(1);
}

/// Makes a call between the marks.
pub fn make<Answer>(mut call: impl FnMut() -> Answer) {
    count_begins();
    black_box(&call());
    count_ends();
}

/// The counts, or why there are none.
pub fn counts() -> Result<Counts, String> {
    let program = env::current_exe().map_err(|error| error.to_string())?;
    let folder = program.with_file_name("callgrind");
    // What an earlier run left would be taken for this run's.
    let _ = fs::remove_dir_all(&folder);
    fs::create_dir_all(&folder).map_err(|error| error.to_string())?;
    let output = callgrind(&program, &folder)?;
    let names = String::from_utf8_lossy(&output.stdout);
    let row = |(at, name): (usize, &str)| {
        let [archive, plain] = [2 * at + 1, 2 * at + 2].map(|file| total(&folder.join(format!("out.{file}"))));
        Ok((name.to_string(), [archive?, plain?]))
    };
    names.lines().enumerate().map(row).collect()
}

/// The run whose calls are counted: it prints the rows' names, and callgrind numbers its files from 1.
fn callgrind(program: &Path, folder: &Path) -> Result<Output, String> {
    let output = Command::new("valgrind")
        .args(["-q", "--tool=callgrind", "--collect-atstart=no"])
        .args(["--zero-before=count_begins", "--dump-before=count_ends"])
        .arg(format!("--callgrind-out-file={}", folder.join("out").display()))
        .args(COUNTED.map(|function| format!("--toggle-collect={function}")))
        .arg(program)
        .arg(COUNTING)
        .output()
        .map_err(|error| match error.kind() {
            ErrorKind::NotFound => "valgrind is not installed".into(),
            _ => format!("valgrind did not start: {error}"),
        })?;
    match output.status.success() {
        true => Ok(output),
        false => Err(format!("callgrind failed: {}", String::from_utf8_lossy(&output.stderr))),
    }
}

/// The total that a file of callgrind's gives.
fn total(file: &Path) -> Result<u64, String> {
    let text = fs::read_to_string(file).map_err(|error| format!("{}: {error}", file.display()))?;
    let total = text.lines().find_map(|line| line.strip_prefix("totals: ")?.trim().parse().ok());
    total.filter(|total| *total > 0).ok_or_else(|| format!("{}: nothing was counted", file.display()))
}
