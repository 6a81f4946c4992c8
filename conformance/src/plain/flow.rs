//! `mvpn_match` in plain Rust.

use super::{
    family_size,
    group::{class, SSM},
    lent,
    sound::{sound, Place, Sound},
    DONE, FLOW, SPACE, TABLE,
};
use crate::ffi::Matched;

/// The least output: the longest NLRI of type 3 and the longest attribute.
pub const OUTPUT: usize = 124;

/// The tier and the route taken, if there is one, or a refusal.
pub type Taken<'a> = Result<Option<(u32, &'a Place)>, u32>;

/// Where the tunnel type stands in an attribute.
const TUNNEL_TYPE: usize = 1;

/// # Safety
/// As `mvpn.h` says: each pointer is valid for the length beside it, and the output overlaps nothing.
#[allow(clippy::too_many_arguments)]
#[inline(never)]
pub unsafe extern "C" fn match_flow(
    table: *const u8,
    table_len: usize,
    prefixes: *const u8,
    prefixes_len: usize,
    router: *const u8,
    router_len: usize,
    source: *const u8,
    source_len: usize,
    group: *const u8,
    group_len: usize,
    output: *mut u8,
    output_len: usize,
) -> Matched {
    let (router, source, group) = (lent(router, router_len), lent(source, source_len), lent(group, group_len));
    let output = std::slice::from_raw_parts_mut(output, output_len);
    let (table, prefixes) = (lent(table, table_len), lent(prefixes, prefixes_len));
    let (taken, _) = taken_by(table, prefixes, [router, source, group], output.len());
    answer(taken, output)
}

/// The number and the tier, with the route's NLRI and attribute written at the front of the output.
#[inline(always)]
pub fn answer(taken: Taken, output: &mut [u8]) -> Matched {
    match taken {
        Err(number) => Matched { number, ..Default::default() },
        Ok(None) => Matched::default(),
        Ok(Some((tier, place))) => {
            let [nlri_size, attribute_size] = [place[0], place[1]].map(u32::from);
            let size = (nlri_size + attribute_size) as usize;
            output[..size].copy_from_slice(&place[2..][..size]);
            Matched { number: DONE, tier, nlri_size, attribute_size }
        }
    }
}

/// The tier and the route that the flow takes, router, source and group, or TABLE, RANGE or SHORT of the prefixes, FLOW, SPACE; and
/// the group's class where there is an answer.
#[inline(always)]
pub fn taken_by<'a>(table: &'a [u8], prefixes: &[u8], flow: [&[u8]; 3], room: usize) -> (Taken<'a>, u32) {
    let Some(Sound { afi, taken }) = sound(table) else { return (Err(TABLE), 0) };
    let [router, source, group] = flow;
    let (number, class) = class(afi, prefixes, group);
    if number != DONE {
        return (Err(number), 0);
    }
    if !matches!(router.len(), 4 | 16) || source.len() != family_size(afi) {
        return (Err(FLOW), 0);
    }
    if room < OUTPUT {
        return (Err(SPACE), 0);
    }
    let wildcard = &source[..0];
    let route = |tier, source, group| Some((tier, lowest(taken, source, group, router)?));
    let half = || if class == SSM { route(2, source, wildcard) } else { route(3, wildcard, group) };
    (Ok(route(1, source, group).or_else(half).or_else(|| route(4, wildcard, wildcard))), class)
}

/// The route of this source, group (each may be the wildcard, no octets) and originator that names a tunnel, with the lowest
/// distinguisher: the first one, as such routes differ in nothing else and stand in order. Those of one NLRI size stand
/// together.
#[inline(always)]
pub fn lowest<'a>(taken: &'a [Place], source: &[u8], group: &[u8], originator: &[u8]) -> Option<&'a Place> {
    let size = 12 + source.len() + group.len() + originator.len();
    let ending = originator.last_chunk::<4>()?;
    let first = taken.partition_point(|place| usize::from(place[0]) < size);
    for place in &taken[first..] {
        if usize::from(place[0]) != size {
            break;
        }
        let nlri = &place[2..][..size];
        let names_tunnel = place[2 + size + TUNNEL_TYPE] != 0;
        if nlri.ends_with(ending) && holds(&nlri[10..], source, group, originator) && names_tunnel {
            return Some(place);
        }
    }
    None
}

/// Whether the octets after the distinguisher are these.
#[inline(always)]
fn holds(octets: &[u8], source: &[u8], group: &[u8], originator: &[u8]) -> bool {
    let (left, right) = octets.split_at(1 + source.len());
    let [source_bits, group_bits] = [source, group].map(|address| address.len() as u8 * 8);
    left[0] == source_bits
        && right[0] == group_bits
        && left[1..] == *source
        && right[1..].starts_with(group)
        && right.ends_with(originator)
}
