//! `mvpn_make`, `mvpn_install` and `mvpn_withdraw` in plain Rust.

use super::{
    attribute::installable,
    family_size, lent,
    shape::single,
    sound::{divided, nlri_of, sound, Place, Sound, HEADER},
    ABSENT, DONE, FAMILY, KIND, ROOM, TABLE,
};
use crate::ffi::Installed;

const NEW: u32 = 1;
const REPLACED: u32 = 2;

/// # Safety
/// As `mvpn.h` says: the pointer is valid for the length beside it.
#[inline(never)]
pub unsafe extern "C" fn make(afi: u16, table: *mut u8, table_len: usize) -> u32 {
    let table = std::slice::from_raw_parts_mut(table, table_len);
    if family_size(afi) == 0 {
        return FAMILY;
    }
    if divided(table).is_none() {
        return TABLE;
    }
    table[..HEADER].copy_from_slice(&[b'M', b'V', b'T', 0, 1, afi as u8, 0, 0]);
    table[HEADER..].fill(0);
    DONE
}

/// # Safety
/// As `mvpn.h` says: each pointer is valid for the length beside it, and the table overlaps nothing.
#[inline(never)]
pub unsafe extern "C" fn install(
    table: *mut u8,
    table_len: usize,
    nlri: *const u8,
    nlri_len: usize,
    attribute: *const u8,
    attribute_len: usize,
) -> Installed {
    let table = std::slice::from_raw_parts_mut(table, table_len);
    match put(table, lent(nlri, nlri_len), lent(attribute, attribute_len)) {
        Ok(outcome) => Installed { number: DONE, outcome },
        Err(number) => Installed { number, outcome: 0 },
    }
}

#[inline(always)]
fn put(table: &mut [u8], nlri: &[u8], attribute: &[u8]) -> Result<u32, u32> {
    let Sound { afi, taken } = sound(table).ok_or(TABLE)?;
    judge_nlri(family_size(afi), nlri)?;
    installable(attribute)?;
    let (count, found) = (taken.len(), search(taken, nlri));
    let places = places_of(table);
    match found {
        Ok(at) => {
            lay_out(&mut places[at], nlri, attribute);
            Ok(REPLACED)
        }
        Err(_) if count == places.len() => Err(ROOM),
        Err(at) => {
            places.copy_within(at..count, at + 1);
            lay_out(&mut places[at], nlri, attribute);
            set_count(table, count + 1);
            Ok(NEW)
        }
    }
}

/// # Safety
/// As `mvpn.h` says: each pointer is valid for the length beside it, and the table overlaps nothing.
#[inline(never)]
pub unsafe extern "C" fn withdraw(table: *mut u8, table_len: usize, nlri: *const u8, nlri_len: usize) -> u32 {
    let table = std::slice::from_raw_parts_mut(table, table_len);
    take_out(table, lent(nlri, nlri_len)).err().unwrap_or(DONE)
}

#[inline(always)]
fn take_out(table: &mut [u8], nlri: &[u8]) -> Result<(), u32> {
    let Sound { afi, taken } = sound(table).ok_or(TABLE)?;
    judge_nlri(family_size(afi), nlri)?;
    let (count, found) = (taken.len(), search(taken, nlri));
    let at = found.map_err(|_| ABSENT)?;
    let places = places_of(table);
    places.copy_within(at + 1..count, at);
    places[count - 1].fill(0);
    set_count(table, count - 1);
    Ok(())
}

/// NLRI reading with no octets after it, then KIND.
#[inline(always)]
fn judge_nlri(family: usize, nlri: &[u8]) -> Result<(), u32> {
    match single(family, nlri)?.route_type {
        3 => Ok(()),
        _ => Err(KIND),
    }
}

/// Where the NLRI stands, or where it would.
#[inline(always)]
fn search(taken: &[Place], nlri: &[u8]) -> Result<usize, usize> {
    taken.binary_search_by(|place| nlri_of(place).cmp(nlri))
}

/// The places of a table that is sound.
#[inline(always)]
pub fn places_of(table: &mut [u8]) -> &mut [Place] {
    table[HEADER..].as_chunks_mut().0
}

#[inline(always)]
fn lay_out(place: &mut Place, nlri: &[u8], attribute: &[u8]) {
    let end = 2 + nlri.len() + attribute.len();
    place[..2].copy_from_slice(&[nlri.len() as u8, attribute.len() as u8]);
    place[2..][..nlri.len()].copy_from_slice(nlri);
    place[2 + nlri.len()..end].copy_from_slice(attribute);
    place[end..].fill(0);
}

#[inline(always)]
pub fn set_count(table: &mut [u8], count: usize) {
    table[HEADER - 2..HEADER].copy_from_slice(&(count as u16).to_be_bytes());
}
