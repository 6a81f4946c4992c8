//! `mvpn_step` and `mvpn_walk` in plain Rust.

use super::{family_size, lent, shape::shape, DONE, FAMILY, GROUP, LONG, SHORT, TYPE};
use crate::ffi::{Layout, Stepped, Walked};

const LONGEST: usize = 4_096;

/// The mode that skips an NLRI of an unknown type, and one that is discarded.
pub const SKIP: u32 = 0;

/// # Safety
/// As `mvpn.h` says: the pointer is valid for the length beside it.
#[inline(never)]
pub unsafe extern "C" fn step(afi: u16, run: *const u8, run_len: usize, cursor: usize) -> Stepped {
    let family = family_size(afi);
    let stay = |number| Stepped { cursor, number, layout: Layout::default() };
    if family == 0 {
        return stay(FAMILY);
    }
    if run_len > LONGEST {
        return stay(LONG);
    }
    match lent(run, run_len).get(cursor..) {
        None => stay(SHORT),
        Some([]) => stay(DONE),
        Some(rest) => match shape(family, rest) {
            Err(number) => stay(number),
            Ok(shape) => Stepped {
                cursor: cursor + shape.length + 2,
                number: DONE,
                layout: Layout {
                    route_type: usize::from(shape.route_type),
                    length: shape.length,
                    source: shape.source,
                    group: shape.group,
                    originator: shape.originator,
                    key: shape.key,
                    fec: shape.fec,
                },
            },
        },
    }
}

/// # Safety
/// As `mvpn.h` says: the pointer is valid for the length beside it.
#[inline(never)]
pub unsafe extern "C" fn walk(afi: u16, mode: u32, run: *const u8, run_len: usize) -> Walked {
    let refused = |number| Walked { number, ..Default::default() };
    if run_len > LONGEST && family_size(afi) != 0 {
        return refused(LONG);
    }
    // Each family has its own loop, with its size a constant.
    match afi {
        1 => walk_family(4, mode, lent(run, run_len)),
        2 => walk_family(16, mode, lent(run, run_len)),
        _ => refused(FAMILY),
    }
}

#[inline(always)]
fn walk_family(family: usize, mode: u32, run: &[u8]) -> Walked {
    let mut rest = run;
    let (mut count, mut skipped) = (0, 0);
    let number = loop {
        if rest.is_empty() {
            break DONE;
        }
        match shape(family, rest) {
            // Such a refusal is of a whole NLRI.
            Err(TYPE | GROUP) if mode == SKIP => {
                rest = &rest[2 + usize::from(rest[1])..];
                skipped += 1;
            }
            Err(number) => break number,
            Ok(shape) => {
                rest = &rest[shape.length + 2..];
                count += 1;
            }
        }
    };
    Walked { number, count, offset: (run.len() - rest.len()) as u32, skipped }
}
