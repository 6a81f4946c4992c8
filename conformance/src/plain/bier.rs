//! `mvpn_bier_string` in plain Rust.

use super::{
    attribute::{installable, readable},
    family_size, lent,
    list::{count, field},
    shape::single,
    DONE, FAMILY, KIND, LONG, SHORT, SPACE, TUNNEL,
};
use crate::ffi::Egress;

const MOST_LEAVES: usize = 1_024;

/// Octets of a string, and its words, the lowest position in the first.
const STRING: usize = 32;
type Words = [u64; STRING / 8];

const S_PMSI: u8 = 3;
const LEAF: u8 = 4;
const BIER: u8 = 11;

/// # Safety
/// As `mvpn.h` says: each pointer is valid for the length beside it, and the output overlaps nothing.
#[allow(clippy::too_many_arguments)]
#[inline(never)]
pub unsafe extern "C" fn bier_string(
    afi: u16,
    nlri: *const u8,
    nlri_len: usize,
    attribute: *const u8,
    attribute_len: usize,
    set: u8,
    leaves: *const u8,
    leaves_len: usize,
    output: *mut u8,
    output_len: usize,
) -> Egress {
    let route = Route { nlri: lent(nlri, nlri_len), attribute: lent(attribute, attribute_len) };
    match egress(family_size(afi), &route, set, lent(leaves, leaves_len)) {
        Err(number) => Egress { number, routers: 0 },
        Ok(_) if output_len < STRING => Egress { number: SPACE, routers: 0 },
        Ok(words) => {
            let output = std::slice::from_raw_parts_mut(output, STRING);
            for (octets, word) in output.as_chunks_mut::<8>().0.iter_mut().zip(words.iter().rev()) {
                *octets = word.to_be_bytes();
            }
            Egress { number: DONE, routers: words.iter().map(|word| word.count_ones()).sum() }
        }
    }
}

struct Route<'a> {
    nlri: &'a [u8],
    attribute: &'a [u8],
}

/// The words of the string, or the first refusal but SPACE.
#[inline(always)]
fn egress(family: usize, route: &Route, set: u8, leaves: &[u8]) -> Result<Words, u32> {
    if family == 0 {
        return Err(FAMILY);
    }
    if single(family, route.nlri)?.route_type != S_PMSI {
        return Err(KIND);
    }
    installable(route.attribute)?;
    if route.attribute[1] != BIER {
        return Err(TUNNEL);
    }
    if count(leaves) > MOST_LEAVES {
        return Err(LONG);
    }
    let whole = whole(leaves).ok_or(SHORT)?;
    match family {
        4 => string::<4>(route, set, whole, count(leaves)),
        _ => string::<16>(route, set, whole, count(leaves)),
    }
}

/// The items of a list that holds them all.
#[inline(always)]
fn whole(list: &[u8]) -> Option<&[u8]> {
    let items = list.get(2..)?;
    let mut rest = items;
    for _ in 0..2 * count(list) {
        field(&mut rest)?;
    }
    Some(items)
}

/// Each Leaf is judged, and its bit set where it counts.
#[inline(always)]
fn string<const FAMILY: usize>(route: &Route, set: u8, mut rest: &[u8], count: usize) -> Result<Words, u32> {
    let mut words = [0; STRING / 8];
    for _ in 0..count {
        let (Some(nlri), Some(attribute)) = (field(&mut rest), field(&mut rest)) else { return Err(SHORT) };
        let shape = single(FAMILY, nlri)?;
        if shape.route_type != LEAF {
            return Err(KIND);
        }
        readable(attribute)?;
        let [_, BIER, _, _, _, sub_domain, high, low, ..] = attribute else { continue };
        // One less, so that 0 lies behind the last set.
        let before = u32::from(u16::from_be_bytes([*high, *low])).wrapping_sub(1);
        let (of_set, position) = (before / 256, before as usize % 256);
        if of_set == u32::from(set) && *sub_domain == route.attribute[5] && nlri[2..2 + shape.key] == *route.nlri {
            words[position / 64] |= 1 << (position % 64);
        }
    }
    Ok(words)
}
