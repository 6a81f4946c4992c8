//! Prints a row for each pair of calls, and keeps count.

use crate::{
    count::{self, Counts},
    measure::Clock,
};
use std::{fmt::Debug, hint::black_box};

const GOAL: f64 = 1.10;
/// For the calls on an empty table of the most places.
const MEMCMP_GOAL: f64 = 2.00;

/// What a run does with its rows.
pub enum Task {
    /// Prints them all, those that were counted beforehand in instructions.
    Print(Clock, Counts),
    /// Makes the calls of the counted rows, for callgrind, and prints their names.
    Count,
}

pub struct Report {
    task: Task,
    rows: usize,
    over: usize,
    worst: f64,
    differ: bool,
}

/// What a table's octets cost without any work on them, in nanoseconds.
#[derive(Clone, Copy)]
pub struct Memory {
    pub memcmp: f64,
    pub reading: f64,
    /// Whether the goal to `memcmp` is asked.
    pub has_goal: bool,
}

impl Report {
    pub fn begin(task: Task) -> Self {
        if let Task::Print(clock, _) = &task {
            println!(
                "same buffers for both calls; ns: best of {} rounds, or their median where not learnt",
                clock.rounds
            );
            println!("code moved by {} octets", env!("BENCH_SHIFT"));
            println!("goal: {GOAL:.2} times plain; on an empty table of 500 places also {MEMCMP_GOAL:.2} times memcmp");
            line("call", "unit", ["archive", "plain", "ratio", "to memcmp", "to reading"].map(String::from), "");
        }
        Report { task, rows: 0, over: 0, worst: 0.0, differ: false }
    }

    /// Prints how many rows are over a goal; whether archive and plain Rust gave the same answers throughout.
    pub fn end(self) -> bool {
        if let Task::Print(..) = self.task {
            println!("{} of {} rows over a goal; worst ratio to plain {:.2}", self.over, self.rows, self.worst);
        }
        !self.differ
    }

    /// The clock, where rows are timed.
    pub fn clock(&self) -> Option<Clock> {
        match self.task {
            Task::Print(clock, _) => Some(clock),
            Task::Count => None,
        }
    }

    /// A row in instructions, of calls so short that where their code lies decides a good part of their time.
    pub fn counted<Answer: PartialEq + Debug>(&mut self, name: &str, calls: [impl Fn() -> Answer; 2]) {
        let answers = calls.each_ref().map(|call| call());
        self.check(name, &answers, &answers[1]);
        self.count(name, calls);
    }

    /// A row in instructions of calls whose answers are checked elsewhere.
    pub fn count<Answer>(&mut self, name: &str, calls: [impl FnMut() -> Answer; 2]) {
        match &self.task {
            Task::Count => {
                println!("{name}");
                calls.into_iter().for_each(count::make);
            }
            Task::Print(_, counts) => match counts.get(name) {
                Some(counts) => self.row(name, "instructions", counts.map(|count| count as f64), None),
                None => line(name, "instructions", ["-"; 5].map(String::from), " not counted"),
            },
        }
    }

    /// A row in nanoseconds of two calls that leave their buffers as they would leave them again.
    pub fn timed<Answer: PartialEq + Debug>(&mut self, name: &str, calls: [impl Fn() -> Answer; 2]) {
        let Some(clock) = self.clock() else { return };
        let answers = calls.each_ref().map(|call| call());
        self.check(name, &answers, &answers[1]);
        self.time(name, clock.best(&calls), None);
    }

    /// A row in nanoseconds.
    pub fn time(&mut self, name: &str, times: [f64; 2], memory: Option<Memory>) {
        self.row(name, "ns", times, memory);
    }

    /// A line in nanoseconds of a call of the archive beside another one, for which no goal is set.
    pub fn beside<Answer, Other>(&self, name: &str, call: impl Fn() -> Answer, other: impl Fn() -> Other) {
        let Some(clock) = self.clock() else { return };
        let calls: [&dyn Fn(); 2] = [
            &|| {
                black_box(&other());
            },
            &|| {
                black_box(&call());
            },
        ];
        let [other, call] = clock.best(&calls);
        let [ratio, call, other] = [call / other, call, other].map(|figure| format!("{figure:.2}"));
        line(name, "ns", [call, other, ratio, "-".into(), "-".into()], "");
    }

    fn row(&mut self, name: &str, unit: &str, [archive, plain]: [f64; 2], memory: Option<Memory>) {
        let ratio = archive / plain;
        let to_memory = memory.map(|memory| [archive / memory.memcmp, archive / memory.reading]);
        let over_memcmp = memory.is_some_and(|memory| memory.has_goal && archive / memory.memcmp > MEMCMP_GOAL);
        let marks = [(ratio > GOAL, " over plain"), (over_memcmp, " over memcmp")];
        let mark: String = marks.into_iter().filter_map(|(over, mark)| over.then_some(mark)).collect();
        let digits = if unit == "ns" { 2 } else { 0 };
        let [memcmp, reading] = match to_memory {
            None => ["-", "-"].map(String::from),
            Some(ratios) => ratios.map(|ratio| format!("{ratio:.2}")),
        };
        let [archive, plain] = [archive, plain].map(|measured| format!("{measured:.digits$}"));
        line(name, unit, [archive, plain, format!("{ratio:.2}"), memcmp, reading], &mark);
        self.rows += 1;
        self.over += usize::from(!mark.is_empty());
        self.worst = self.worst.max(ratio);
    }

    /// Checks that each call puts these octets at the front of its output of `room` octets, and nothing past them.
    pub fn check_output<Answer>(
        &mut self,
        calls: &[impl Fn() -> Answer; 2],
        output: *mut u8,
        room: usize,
        front: &[u8],
        name: &str,
    ) {
        let outputs = calls.each_ref().map(|call| unsafe {
            output.write_bytes(0x5A, room);
            call();
            std::slice::from_raw_parts(output, room).to_vec()
        });
        let expected = [front, &vec![0x5A; room - front.len()]].concat();
        self.check(name, &outputs, &expected);
    }

    /// Checks that each call gives this answer and changes a table as it should, from the first of these to the second.
    pub fn check_changing<Answer: PartialEq + Debug>(
        &mut self,
        name: &str,
        calls: &[impl Fn(*mut u8) -> Answer; 2],
        [before, after]: [&[u8]; 2],
        expected: Answer,
    ) {
        let results = calls.each_ref().map(|call| {
            let mut table = before.to_vec();
            let answer = call(table.as_mut_ptr());
            // Where the first octet stands that is not as it should be.
            (answer, table.iter().zip(after).position(|(is, should)| is != should))
        });
        self.check(name, &results, &(expected, None));
    }

    /// Checks what the archive and plain Rust gave.
    pub fn check<Answer: PartialEq + Debug>(&mut self, name: &str, got: &[Answer; 2], expected: &Answer) {
        for (whose, got) in ["archive", "plain"].into_iter().zip(got) {
            if got != expected {
                eprintln!("ANSWERS DIFFER: {name}\n{whose} {got:?}\nexpected {expected:?}");
                self.differ = true;
            }
        }
    }
}

/// Prints a line. Two spaces at least stand between its cells, and never two in a name.
pub fn line(name: &str, unit: &str, cells: [String; 5], mark: &str) {
    let [archive, plain, ratio, memcmp, reading] = cells;
    let line =
        format!("{name:<58}  {unit:<12}  {archive:>9}  {plain:>9}  {ratio:>6}  {memcmp:>9}  {reading:>10} {mark}");
    println!("{}", line.trim_end());
}
