//! Rows of a run that arrives in pieces: in one, in pieces of 64 octets, and octet by octet. Each also as a ratio to the
//! archive's walk of the same run.

use crate::{report::Report, RUN, WALKS};
use conformance::{
    ffi::{raw, Walked, UNFINISHED},
    plain,
    second::runs::run::SKIP,
};
use std::hint::black_box;

/// Octets of a piece.
const SIZES: [usize; 3] = [RUN, 64, 1];

#[derive(Clone, Copy)]
struct Calls {
    start: raw::PiecesStart,
    feed: raw::PiecesFeed,
    finish: raw::PiecesFinish,
}

const CALLS: [Calls; 2] = [
    Calls { start: raw::mvpn_pieces_start, feed: raw::mvpn_pieces_feed, finish: raw::mvpn_pieces_finish },
    Calls { start: plain::pieces_start, feed: plain::pieces_feed, finish: plain::pieces_finish },
];

pub fn rows(report: &mut Report, afi: u16, run: &[u8]) {
    let [walk, _] = black_box(WALKS);
    let walk = || unsafe { walk(afi, SKIP, run.as_ptr(), black_box(run.len())) };
    let mut buffer = [0u8; UNFINISHED];
    let unfinished = buffer.as_mut_ptr();
    for size in SIZES {
        let name = format!("run of {RUN} octets in pieces of {size}, afi {afi}");
        let calls = black_box(CALLS).map(|calls| move || in_pieces(calls, afi, black_box(run), size, unfinished));
        report.check(&name, &calls.map(|call| call()), &walk());
        report.timed(&name, calls);
        let [archive, _] = calls;
        report.beside(&format!("{name}, to the walk"), archive, walk);
    }
}

/// The caller's loop.
fn in_pieces(calls: Calls, afi: u16, run: &[u8], size: usize, unfinished: *mut u8) -> Walked {
    unsafe {
        let mut pieces = (calls.start)(afi, SKIP);
        for piece in run.chunks(size) {
            let mut rest = piece;
            while !rest.is_empty() {
                let fed = (calls.feed)(pieces, unfinished, rest.as_ptr(), rest.len());
                pieces = fed.pieces;
                rest = &rest[fed.taken..];
            }
        }
        (calls.finish)(pieces).walked
    }
}
