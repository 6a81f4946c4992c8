//! `mvpn_explain` in plain Rust.

use super::{
    flow::{answer, taken_by},
    group::SSM,
    lent,
};
use crate::ffi::Explained;

// Reasons.
const TAKEN: u32 = 1;
const NO_SUCH_ROUTE: u32 = 2;
const WRONG_GROUP_CLASS: u32 = 3;
const EARLIER_TIER_WON: u32 = 4;

/// # Safety
/// As `mvpn.h` says: each pointer is valid for the length beside it, and the output overlaps nothing.
#[allow(clippy::too_many_arguments)]
#[inline(never)]
pub unsafe extern "C" fn explain(
    table: *const u8,
    table_len: usize,
    prefixes: *const u8,
    prefixes_len: usize,
    router: *const u8,
    router_len: usize,
    source: *const u8,
    source_len: usize,
    group: *const u8,
    group_len: usize,
    output: *mut u8,
    output_len: usize,
) -> Explained {
    let (router, source, group) = (lent(router, router_len), lent(source, source_len), lent(group, group_len));
    let output = std::slice::from_raw_parts_mut(output, output_len);
    let (table, prefixes) = (lent(table, table_len), lent(prefixes, prefixes_len));
    let (taken, class) = taken_by(table, prefixes, [router, source, group], output.len());
    let reasons = match taken {
        Err(_) => [0; 4],
        Ok(taken) => reasons(class, taken.map_or(0, |(tier, _)| tier)),
    };
    Explained { matched: answer(taken, output), reasons }
}

/// The reasons follow from the class and the tier taken, 0 where none is.
#[inline(always)]
fn reasons(class: u32, taken: u32) -> [u32; 4] {
    let wrong = if class == SSM { 3 } else { 2 };
    [1, 2, 3, 4].map(|tier| match tier {
        _ if tier == taken => TAKEN,
        _ if taken != 0 && tier > taken => EARLIER_TIER_WON,
        _ if tier == wrong => WRONG_GROUP_CLASS,
        _ => NO_SUCH_ROUTE,
    })
}
