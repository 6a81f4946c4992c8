//! `mvpn_next` and `mvpn_table_info` in plain Rust.

use super::{
    flow::OUTPUT,
    lent,
    sound::{divided, nlri_of, sound, Sound, MARK},
    DONE, SPACE, TABLE,
};
use crate::ffi::{Following, TableInfo};

/// # Safety
/// As `mvpn.h` says: each pointer is valid for the length beside it, and the output overlaps nothing.
#[inline(never)]
pub unsafe extern "C" fn next(
    table: *const u8,
    table_len: usize,
    nlri: *const u8,
    nlri_len: usize,
    output: *mut u8,
    output_len: usize,
) -> Following {
    let refusal = |number| Following { number, ..Default::default() };
    let Some(Sound { taken, .. }) = sound(lent(table, table_len)) else { return refusal(TABLE) };
    let output = std::slice::from_raw_parts_mut(output, output_len);
    if output.len() < OUTPUT {
        return refusal(SPACE);
    }
    let nlri = lent(nlri, nlri_len);
    let Some(place) = taken.get(taken.partition_point(|place| nlri_of(place) <= nlri)) else {
        return refusal(DONE);
    };
    let [nlri_size, attribute_size] = [place[0], place[1]].map(u32::from);
    let size = (nlri_size + attribute_size) as usize;
    output[..size].copy_from_slice(&place[2..][..size]);
    Following { number: DONE, nlri_size, attribute_size, stale: u32::from(place[MARK]) }
}

/// # Safety
/// As `mvpn.h` says: the pointer is valid for the length beside it.
#[inline(never)]
pub unsafe extern "C" fn table_info(table: *const u8, table_len: usize) -> TableInfo {
    let table = lent(table, table_len);
    match (sound(table), divided(table)) {
        (Some(Sound { afi, taken }), Some((_, places))) => {
            let [places, routes] = [places.len(), taken.len()].map(|count| count as u32);
            TableInfo { number: DONE, afi: u32::from(afi), places, routes }
        }
        _ => TableInfo { number: TABLE, ..Default::default() },
    }
}
