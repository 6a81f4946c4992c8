//! Times calls: batches of the calls alternate, and each goes first in turn.

use conformance::{options::SEED, random::Random};
use std::{hint::black_box, ops::Range, time::Instant};

/// A batch takes about this many nanoseconds, far more than reading the clock.
const BATCH: f64 = 20_000.0;

/// Octets of the copies of a table that a batch uses up: few enough to stay warm.
const COPIES: usize = 32_768;

/// The most octets that are put back after each call.
const FEW_OCTETS: usize = 1_024;

#[derive(Clone, Copy)]
pub struct Clock {
    pub rounds: usize,
}

impl Clock {
    /// Best nanoseconds of each call, made again and again on the same buffers.
    pub fn best<Answer, const CALLS: usize>(self, calls: &[impl Fn() -> Answer; CALLS]) -> [f64; CALLS] {
        let repeats = (BATCH / batch(&calls[CALLS - 1], 1_000)).max(1.0) as usize;
        self.alternate(|which| batch(&calls[which], repeats)).map(|times| times[0])
    }

    /// Best nanoseconds of each call where it changes its table to `after`.
    pub fn best_changing<Answer>(
        self,
        table: &[u8],
        after: &[u8],
        calls: &[impl Fn(*mut u8) -> Answer; 2],
    ) -> [f64; 2] {
        let differs = |at: &usize| table[*at] != after[*at];
        let first = (0..table.len()).find(differs).unwrap_or(0);
        let end = (0..table.len()).rfind(differs).map_or(0, |last| last + 1);
        if end - first > FEW_OCTETS {
            self.best_on_copies(table, calls)
        } else {
            self.best_put_back(table, first..end, calls)
        }
    }

    /// Each call is made on the same table again and again. The few octets that it changes are put back inside the time that is
    /// measured; the time of that alone is taken off.
    fn best_put_back<Answer>(
        self,
        table: &[u8],
        changed: Range<usize>,
        calls: &[impl Fn(*mut u8) -> Answer; 2],
    ) -> [f64; 2] {
        let mut copy = table.to_vec();
        let mut called = |call: &dyn Fn(*mut u8), repeats: usize| {
            let start = Instant::now();
            for _ in 0..repeats {
                call(black_box(&mut copy[..]).as_mut_ptr());
                black_box(&mut copy[..])[changed.clone()].copy_from_slice(&black_box(table)[changed.clone()]);
            }
            start.elapsed().as_nanos() as f64 / repeats as f64
        };
        let [ours, plain] = calls.each_ref().map(|call| {
            move |table: *mut u8| {
                black_box(&call(table));
            }
        });
        let calls: [&dyn Fn(*mut u8); 3] = [&ours, &plain, &|_| ()];
        let repeats = (BATCH / called(calls[1], 1_000)).max(1.0) as usize;
        let [ours, plain, alone] = self.alternate(|which| called(calls[which], repeats)).map(|times| times[0]);
        [ours - alone, plain - alone]
    }

    /// Each call of a batch has a copy of the table to itself; the copies get their octets back outside the time that is
    /// measured.
    fn best_on_copies<Answer>(self, table: &[u8], calls: &[impl Fn(*mut u8) -> Answer; 2]) -> [f64; 2] {
        let count = (COPIES / table.len()).clamp(2, 64);
        let mut copies = table.repeat(count);
        let clock = self.alternate::<1>(|_| Instant::now().elapsed().as_nanos() as f64)[0][0];
        let times = self.alternate(|which| {
            copies.chunks_exact_mut(table.len()).for_each(|copy| copy.copy_from_slice(table));
            let start = Instant::now();
            for copy in copies.chunks_exact_mut(table.len()) {
                black_box(&calls[which](copy.as_mut_ptr()));
            }
            (start.elapsed().as_nanos() as f64 - clock) / count as f64
        });
        times.map(|times| times[0])
    }

    /// Median nanoseconds of each call where a batch makes it once on every input, in an order that no batch before had.
    /// The inputs get back what a call changes outside the time that is measured.
    pub fn unlearnt<Input, Answer>(
        self,
        inputs: &mut [Input],
        restore: impl Fn(&mut Input),
        calls: &[impl Fn(&mut Input) -> Answer; 2],
    ) -> [f64; 2] {
        let mut random = Random::new(SEED);
        let times = self.alternate(|which| {
            random.shuffle(inputs);
            inputs.iter_mut().for_each(&restore);
            let start = Instant::now();
            for input in inputs.iter_mut() {
                black_box(&calls[which](input));
            }
            start.elapsed().as_nanos() as f64 / inputs.len() as f64
        });
        times.map(|times| times[times.len() / 2])
    }

    /// What each measurement gives in every round, the least first.
    fn alternate<const CALLS: usize>(self, mut measure: impl FnMut(usize) -> f64) -> [Vec<f64>; CALLS] {
        let mut times = [const { Vec::new() }; CALLS];
        for round in 0..self.rounds {
            for turn in 0..CALLS {
                let which = (round + turn) % CALLS;
                times[which].push(measure(which));
            }
        }
        times.iter_mut().for_each(|times| times.sort_by(f64::total_cmp));
        times
    }
}

/// Nanoseconds of one call in a batch.
fn batch<Answer>(call: &impl Fn() -> Answer, repeats: usize) -> f64 {
    let start = Instant::now();
    for _ in 0..repeats {
        // By reference: a copy of the answer would be timed with the call.
        black_box(&call());
    }
    start.elapsed().as_nanos() as f64 / repeats as f64
}
