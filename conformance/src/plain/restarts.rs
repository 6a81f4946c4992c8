//! `mvpn_mark` and `mvpn_sweep` in plain Rust.

use super::{
    lent,
    sound::{nlri_of, sound, Sound, MARK, PLACE},
    table::{places_of, set_count},
    DONE, FLOW, TABLE,
};
use crate::ffi::Restarted;

/// # Safety
/// As `mvpn.h` says: each pointer is valid for the length beside it, and the table overlaps nothing.
#[inline(never)]
pub unsafe extern "C" fn mark(table: *mut u8, table_len: usize, router: *const u8, router_len: usize) -> Restarted {
    restart::<true>(std::slice::from_raw_parts_mut(table, table_len), lent(router, router_len))
}

/// # Safety
/// As `mvpn.h` says: each pointer is valid for the length beside it, and the table overlaps nothing.
#[inline(never)]
pub unsafe extern "C" fn sweep(table: *mut u8, table_len: usize, router: *const u8, router_len: usize) -> Restarted {
    restart::<false>(std::slice::from_raw_parts_mut(table, table_len), lent(router, router_len))
}

/// The router's marked routes go. Those that stay move up to the places of these, and are marked where they are the router's and
/// a mark is done.
#[inline(always)]
fn restart<const MARKS: bool>(table: &mut [u8], router: &[u8]) -> Restarted {
    let refusal = |number| Restarted { number, gone: 0 };
    let Some(Sound { taken, .. }) = sound(table) else { return refusal(TABLE) };
    let count = taken.len();
    let places = places_of(table);
    let kept = match (<&[u8; 4]>::try_from(router), <&[u8; 16]>::try_from(router)) {
        (Ok(router), _) => settle::<MARKS, 4>(&mut places[..count], router),
        (_, Ok(router)) => settle::<MARKS, 16>(&mut places[..count], router),
        _ => return refusal(FLOW),
    };
    if kept < count {
        places[kept..count].fill([0; PLACE]);
        set_count(table, kept);
    }
    Restarted { number: DONE, gone: (count - kept) as u32 }
}

/// How many routes stay, at the front.
#[inline(always)]
fn settle<const MARKS: bool, const ROUTER: usize>(taken: &mut [[u8; PLACE]], router: &[u8; ROUTER]) -> usize {
    let mut kept = 0;
    for at in 0..taken.len() {
        if is_of(nlri_of(&taken[at]), router) {
            if taken[at][MARK] == 1 {
                continue;
            }
            if MARKS {
                taken[at][MARK] = 1;
            }
        }
        if kept < at {
            taken[kept] = taken[at];
        }
        kept += 1;
    }
    kept
}

/// Whether the originator of a type 3 NLRI is the router, in size and octets.
#[inline(always)]
fn is_of<const ROUTER: usize>(nlri: &[u8], router: &[u8; ROUTER]) -> bool {
    let source = usize::from(nlri[10] / 8);
    let group = usize::from(nlri[11 + source] / 8);
    nlri.len() == 12 + source + group + ROUTER && nlri.last_chunk() == Some(router)
}
