//! `mvpn_salvage` in plain Rust.

use super::{
    family_size, lent,
    sound::{divided, good_nlri, nlri_of, Place, HEADER, MOST_PLACES, PLACE},
    table::places_of,
    DONE, FAMILY, SPACE, TABLE,
};
use crate::ffi::Salvaged;

/// Why a place is dropped; 0 where it is not.
const BAD: u8 = 1;
const REPEATED: u8 = 2;

/// The octets of the list for each place dropped.
const DROPPED: usize = 3;

/// # Safety
/// As `mvpn.h` says: each pointer is valid for the length beside it, and neither the table nor the list overlaps another argument.
#[inline(never)]
pub unsafe extern "C" fn salvage(
    afi: u16,
    damaged: *const u8,
    damaged_len: usize,
    table: *mut u8,
    table_len: usize,
    dropped: *mut u8,
    dropped_len: usize,
) -> Salvaged {
    let refusal = |number| Salvaged { number, kept: 0, dropped: 0 };
    let family = family_size(afi);
    if family == 0 {
        return refusal(FAMILY);
    }
    let Some((_, places)) = divided(lent(damaged, damaged_len)) else { return refusal(TABLE) };
    if table_len != damaged_len || dropped_len < DROPPED * places.len() {
        return refusal(SPACE);
    }
    let table = std::slice::from_raw_parts_mut(table, table_len);
    let dropped = std::slice::from_raw_parts_mut(dropped, dropped_len);
    let mut reasons = [0; MOST_PLACES];
    let kept = match family {
        4 => keep::<4>(places, places_of(table), &mut reasons),
        _ => keep::<16>(places, places_of(table), &mut reasons),
    };
    let [high, low] = (kept as u16).to_be_bytes();
    table[..HEADER].copy_from_slice(&[b'M', b'V', b'T', 0, 1, afi as u8, high, low]);
    let listed = list(&reasons[..places.len()], dropped);
    Salvaged { number: DONE, kept: kept as u32, dropped: listed as u32 }
}

/// Writes the good places, in the order of their NLRIs and of equal ones the first, and zeros behind them; how many they are. While each NLRI
/// is over the last one, as in a sound table, a place is copied when it is found good.
#[inline(always)]
fn keep<const FAMILY: usize>(damaged: &[Place], places: &mut [Place], reasons: &mut [u8; MOST_PLACES]) -> usize {
    let mut numbers = [0; MOST_PLACES];
    let (mut good, mut in_order, mut last) = (0, true, &[][..]);
    for (number, place) in damaged.iter().enumerate() {
        if let Some(nlri) = good_nlri::<FAMILY>(place) {
            in_order &= last < nlri;
            last = nlri;
            if in_order {
                places[good] = *place;
            }
            numbers[good] = number as u16;
            good += 1;
        } else if *place != [0; PLACE] {
            reasons[number] = BAD;
        }
    }
    let kept = if in_order { good } else { sort(damaged, &mut numbers[..good], places, reasons) };
    places[kept..].fill([0; PLACE]);
    kept
}

/// Writes the places of these numbers in the order of their NLRIs, of equal ones the first; how many they are.
fn sort(damaged: &[Place], numbers: &mut [u16], places: &mut [Place], reasons: &mut [u8; MOST_PLACES]) -> usize {
    let nlri = |number: u16| nlri_of(&damaged[usize::from(number)]);
    numbers.sort_unstable_by(|left, right| nlri(*left).cmp(nlri(*right)).then(left.cmp(right)));
    let mut kept = 0;
    for number in numbers {
        if kept > 0 && nlri_of(&places[kept - 1]) == nlri(*number) {
            reasons[usize::from(*number)] = REPEATED;
        } else {
            places[kept] = damaged[usize::from(*number)];
            kept += 1;
        }
    }
    kept
}

/// Writes the number and the reason of each place that is dropped; how many they are.
#[inline(always)]
fn list(reasons: &[u8], dropped: &mut [u8]) -> usize {
    let (rows, _) = dropped.as_chunks_mut::<DROPPED>();
    let mut listed = 0;
    for (number, reason) in reasons.iter().enumerate().filter(|(_, reason)| **reason != 0) {
        let [high, low] = (number as u16).to_be_bytes();
        rows[listed] = [high, low, *reason];
        listed += 1;
    }
    listed
}
