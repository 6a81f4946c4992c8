//! `mvpn_pieces_start`, `mvpn_pieces_feed` and `mvpn_pieces_finish` in plain Rust.

use super::{
    family_size, lent,
    run::SKIP,
    shape::{shape, Shape},
    DONE, FAMILY, GROUP, LONG, SHORT, TYPE,
};
use crate::ffi::{Fed, Pieces, Walked, UNFINISHED};

const LONGEST: usize = 4_096;

// Stages of a reader.
const READING: u32 = 0;
const STOPPED: u32 = 1;
const FINISHED: u32 = 2;

#[inline(never)]
pub extern "C" fn pieces_start(afi: u16, mode: u32) -> Pieces {
    let (number, stage) = if family_size(afi) == 0 { (FAMILY, FINISHED) } else { (DONE, READING) };
    let walked = Walked { number, ..Default::default() };
    Pieces { walked, afi: u32::from(afi), mode, stage, total: 0, kept: 0 }
}

/// # Safety
/// As `mvpn.h` says: `unfinished` has `UNFINISHED` octets, the piece's pointer is valid for the length beside it, and the two
/// do not overlap.
#[inline(never)]
pub unsafe extern "C" fn pieces_feed(pieces: Pieces, unfinished: *mut u8, piece: *const u8, piece_len: usize) -> Fed {
    let fed = |pieces, taken, size| Fed { pieces, taken, size };
    if pieces.stage >= FINISHED {
        return fed(pieces, piece_len, 0);
    }
    if piece_len > LONGEST.saturating_sub(pieces.total as usize) {
        let walked = Walked { number: LONG, ..Default::default() };
        return fed(Pieces { walked, stage: FINISHED, ..pieces }, piece_len, 0);
    }
    if pieces.stage == STOPPED {
        return fed(Pieces { total: pieces.total + piece_len as u32, ..pieces }, piece_len, 0);
    }
    let (unfinished, piece) = (&mut *unfinished.cast::<[u8; UNFINISHED]>(), lent(piece, piece_len));
    let family = family_size(pieces.afi as u16);
    let Whole { taken, judged, size } = match whole_in(piece) {
        Some(nlri) if pieces.kept == 0 => {
            unfinished[..nlri.len()].copy_from_slice(nlri);
            Whole { taken: nlri.len(), judged: shape(family, nlri), size: nlri.len() }
        }
        _ => match fill(unfinished, pieces.kept as usize, piece) {
            (taken, Some(size)) => Whole { taken, judged: shape(family, &unfinished[..size]), size },
            (taken, None) => {
                let [total, kept] = [pieces.total, pieces.kept].map(|octets| octets + taken as u32);
                return fed(Pieces { total, kept, ..pieces }, taken, 0);
            }
        },
    };
    let total = pieces.total + taken as u32;
    let Walked { count, offset, skipped, .. } = pieces.walked;
    let passed = offset + size as u32;
    match judged {
        Ok(_) => {
            let walked = Walked { count: count + 1, offset: passed, ..pieces.walked };
            fed(Pieces { walked, total, kept: 0, ..pieces }, taken, size)
        }
        Err(TYPE | GROUP) if pieces.mode == SKIP => {
            let walked = Walked { offset: passed, skipped: skipped + 1, ..pieces.walked };
            fed(Pieces { walked, total, kept: 0, ..pieces }, taken, 0)
        }
        Err(number) => {
            let walked = Walked { number, ..pieces.walked };
            fed(Pieces { walked, stage: STOPPED, total, ..pieces }, taken, 0)
        }
    }
}

/// An NLRI that a feed has made whole: the octets taken for it, what reading says of it, and its own octets.
struct Whole {
    taken: usize,
    judged: Result<Shape, u32>,
    size: usize,
}

/// The NLRI at the front of a piece that holds all of it.
#[inline(always)]
fn whole_in(piece: &[u8]) -> Option<&[u8]> {
    let [_, length, ..] = piece else { return None };
    piece.get(..2 + usize::from(*length))
}

/// Copies octets of the piece behind the `kept` ones, up to the end of the NLRI; how many, and its size if it is whole.
#[inline(always)]
fn fill(unfinished: &mut [u8; UNFINISHED], kept: usize, piece: &[u8]) -> (usize, Option<usize>) {
    // The Length octet stands in the piece or among the octets kept.
    let length = match (kept, piece) {
        (0, [_, length, ..]) | (1, [length, ..]) => *length,
        (0 | 1, _) => {
            unfinished[kept..kept + piece.len()].copy_from_slice(piece);
            return (piece.len(), None);
        }
        _ => unfinished[1],
    };
    let size = 2 + usize::from(length);
    let taken = size.saturating_sub(kept).min(piece.len());
    if let Some(place) = unfinished.get_mut(kept..kept + taken) {
        place.copy_from_slice(&piece[..taken]);
    }
    (taken, (kept + taken == size).then_some(size))
}

#[inline(never)]
pub extern "C" fn pieces_finish(pieces: Pieces) -> Pieces {
    let number = match (pieces.stage, pieces.kept) {
        (READING, 0) => DONE,
        (READING, _) => SHORT,
        _ => pieces.walked.number,
    };
    Pieces { walked: Walked { number, ..pieces.walked }, stage: FINISHED, ..pieces }
}
