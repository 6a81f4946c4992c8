//! The calls of `mvpn.h` in plain Rust: what the archive's speed is held against.
//!
//! Each does the whole work of the archive's call, no more and no less. It has the same C arguments and gives its answer by
//! value; it refuses the same inputs with the same numbers, in document 01's order, before it writes anything; every
//! call on a table but making and salvaging one tests every octet of it for soundness each time; and every octet that the call
//! promises is written, those behind a route included. Nothing is allocated or kept between calls. `tests` compares
//! all of this with the second decoder and the second table. What a planner proposes is its own choice: that of plain
//! Rust is judged, as the archive's is.
//!
//! It is written from document 01 and takes nothing from the crates, so it may go another way: a match looks for one tier
//! after another among the routes of that tier's NLRI size, where the archive passes over all routes once. It is written
//! to be fast, as Rust for release would be: slices and patterns, comparisons and copies of the standard library, a loop for
//! each family where the family's size as a constant helps, and small functions inlined. Nothing is `unsafe` but the making of
//! slices from the caller's pointers. A call itself is not inlined into the measurement.

mod attribute;
mod bier;
mod explain;
mod fec;
mod flow;
mod following;
mod group;
mod list;
mod nlri_read;
mod nlri_write;
mod pieces;
mod plan;
mod restarts;
mod run;
mod salvage;
mod shape;
mod shared;
mod sound;
mod table;
#[cfg(test)]
mod tests;

pub use attribute::{attribute_read, attribute_write};
pub use bier::bier_string;
pub use explain::explain;
pub use flow::match_flow;
pub use following::{next, table_info};
pub use group::group_class;
pub use nlri_read::nlri_read;
pub use nlri_write::nlri_write;
pub use pieces::{pieces_feed, pieces_finish, pieces_start};
pub use plan::{judge, plan};
pub use restarts::{mark, sweep};
pub use run::{step, walk};
pub use salvage::salvage;
pub use shared::match_shared;
pub use table::{install, make, withdraw};

const DONE: u32 = 0;
const SHORT: u32 = 1;
const TYPE: u32 = 2;
const LENGTH: u32 = 3;
const WIDTH: u32 = 4;
const KEY: u32 = 5;
const TUNNEL: u32 = 6;
const IDENT: u32 = 7;
const LONG: u32 = 8;
const LABEL: u32 = 9;
const FAMILY: u32 = 10;
const TABLE: u32 = 11;
const KIND: u32 = 12;
const ROOM: u32 = 13;
const ABSENT: u32 = 14;
const FLOW: u32 = 15;
const SPACE: u32 = 16;
const DEEP: u32 = 17;
const RANGE: u32 = 18;
const GROUP: u32 = 19;
const CONFLICT: u32 = 20;

/// The octets of a customer address under an AFI; 0 for a bad AFI.
#[inline(always)]
fn family_size(afi: u16) -> usize {
    match afi {
        1 => 4,
        2 => 16,
        _ => 0,
    }
}

/// What the C caller lends.
///
/// # Safety
/// The pointer is not null and valid for `size` octets.
#[inline(always)]
unsafe fn lent<'a>(octets: *const u8, size: usize) -> &'a [u8] {
    std::slice::from_raw_parts(octets, size)
}
