//! `mvpn_judge` and `mvpn_plan` in plain Rust. Flows and routes are sorted by source and group, so that equal ones stand together and a
//! flow finds its route by halving.

use super::{
    family_size,
    group::{class, SSM},
    lent,
    list::{count, field},
    sound::{good_nlri, Place, PLACE},
    CONFLICT, DONE, FAMILY, FLOW, LABEL, LONG, SHORT, SPACE, TUNNEL,
};
use crate::{
    ffi::{Judged, Planned},
    plain::attribute::installable,
};

const MOST_FLOWS: usize = 64;
const LONGEST_PROPOSAL: usize = PLACE * MOST_FLOWS;

/// Groups that are multicast, to ask whether prefixes are good.
const MULTICAST: [&[u8]; 2] = [&[224, 0, 0, 0], &[0xFF; 16]];

/// Source and group as numbers, each with whether it is there: a wildcard is not.
type Key = ((bool, u128), (bool, u128));

const ANY: (bool, u128) = (false, 0);

/// A flow, and a route that is proposed.
#[derive(Clone, Copy)]
struct Wanted<'a> {
    key: Key,
    source: &'a [u8],
    group: &'a [u8],
    attribute: &'a [u8],
}

const NO_FLOW: Wanted = Wanted { key: (ANY, ANY), source: &[], group: &[], attribute: &[] };

/// An address as a number.
#[inline(always)]
fn number(address: &[u8]) -> (bool, u128) {
    match *address {
        [] => ANY,
        [a, b, c, d] => (true, u32::from_be_bytes([a, b, c, d]).into()),
        _ => (true, u128::from_be_bytes(address.try_into().unwrap_or_default())),
    }
}

/// What both calls take, but for the places.
struct Wish<'a> {
    afi: u16,
    prefixes: &'a [u8],
    originator: &'a [u8],
    distinguisher: &'a [u8],
    flows: &'a [u8],
}

/// Reads the flows, sorted by source and group; how many they are, or a refusal.
#[inline(always)]
fn read<'a>(wish: &Wish<'a>, places: usize, flows: &mut [Wanted<'a>; MOST_FLOWS]) -> Result<usize, u32> {
    let size = family_size(wish.afi);
    if size == 0 {
        return Err(FAMILY);
    }
    let (prefixes, _) = class(wish.afi, wish.prefixes, MULTICAST[usize::from(wish.afi) - 1]);
    if prefixes != DONE {
        return Err(prefixes);
    }
    let listed = count(wish.flows);
    if listed > MOST_FLOWS || places > LONGEST_PROPOSAL {
        return Err(LONG);
    }
    let mut rest = wish.flows.get(2..).ok_or(SHORT)?;
    let flows = &mut flows[..listed];
    for flow in flows.iter_mut() {
        let mut next = || field(&mut rest).ok_or(SHORT);
        let (source, group) = (next()?, next()?);
        *flow = Wanted { source, group, attribute: next()?, ..NO_FLOW };
    }
    if !matches!(wish.originator.len(), 4 | 16) || wish.distinguisher.len() != 8 {
        return Err(FLOW);
    }
    for flow in flows.iter_mut() {
        if flow.source.len() != size || class(wish.afi, &[0, 0], flow.group).0 != DONE {
            return Err(FLOW);
        }
        flow.key = (number(flow.source), number(flow.group));
    }
    judge_attributes(flows)?;
    flows.sort_unstable_by_key(|flow| flow.key);
    match flows.windows(2).any(|pair| pair[0].key == pair[1].key && pair[0].attribute != pair[1].attribute) {
        true => Err(CONFLICT),
        false => Ok(listed),
    }
}

/// The first attribute that is not read; LABEL; TUNNEL.
#[inline(always)]
fn judge_attributes(flows: &[Wanted]) -> Result<(), u32> {
    let (mut unlabelled, mut unnamed) = (false, false);
    for flow in flows {
        match installable(flow.attribute) {
            Ok(()) => unnamed |= flow.attribute[1] == 0,
            Err(LABEL) => unlabelled = true,
            Err(number) => return Err(number),
        }
    }
    match (unlabelled, unnamed) {
        (true, _) => Err(LABEL),
        (false, true) => Err(TUNNEL),
        (false, false) => Ok(()),
    }
}

/// # Safety
/// As `mvpn.h` says: each pointer is valid for the length beside it.
#[allow(clippy::too_many_arguments)]
#[inline(never)]
pub unsafe extern "C" fn judge(
    afi: u16,
    prefixes: *const u8,
    prefixes_len: usize,
    originator: *const u8,
    originator_len: usize,
    distinguisher: *const u8,
    distinguisher_len: usize,
    flows: *const u8,
    flows_len: usize,
    places: *const u8,
    places_len: usize,
) -> Judged {
    let (prefixes, originator) = (lent(prefixes, prefixes_len), lent(originator, originator_len));
    let (distinguisher, flows) = (lent(distinguisher, distinguisher_len), lent(flows, flows_len));
    let wish = Wish { afi, prefixes, originator, distinguisher, flows };
    let mut flows = [NO_FLOW; MOST_FLOWS];
    let count = match read(&wish, places_len, &mut flows) {
        Ok(count) => count,
        Err(number) => return Judged { number, accepted: 0 },
    };
    let accepted = match afi {
        1 => is_plan::<4>(&wish, &flows[..count], lent(places, places_len)),
        _ => is_plan::<16>(&wish, &flows[..count], lent(places, places_len)),
    };
    Judged { number: DONE, accepted: accepted.into() }
}

#[inline(always)]
fn is_plan<const FAMILY: usize>(wish: &Wish, flows: &[Wanted], places: &[u8]) -> bool {
    let (places, []) = places.as_chunks::<PLACE>() else { return false };
    let mut routes = [NO_FLOW; MOST_FLOWS];
    let routes = &mut routes[..places.len()];
    for (route, place) in routes.iter_mut().zip(places) {
        match proposed::<FAMILY>(wish, place) {
            Some(read) => *route = read,
            None => return false,
        }
    }
    routes.sort_unstable_by_key(|route| route.key);
    if routes.windows(2).any(|pair| pair[0].key == pair[1].key) {
        return false;
    }
    let named = |key: Key| {
        let at = routes.binary_search_by_key(&key, |route| route.key).ok()?;
        Some(routes[at].attribute).filter(|attribute| attribute[1] != 0)
    };
    flows.iter().all(|flow| {
        let (source, group) = flow.key;
        let half = || match class(wish.afi, wish.prefixes, flow.group).1 == SSM {
            true => named((source, ANY)),
            false => named((ANY, group)),
        };
        named(flow.key).or_else(half).or_else(|| named((ANY, ANY))) == Some(flow.attribute)
    })
}

/// The route of a good place that has the originator and the distinguisher.
#[inline(always)]
fn proposed<'a, const FAMILY: usize>(wish: &Wish, place: &'a Place) -> Option<Wanted<'a>> {
    let nlri = good_nlri::<FAMILY>(place)?;
    let (distinguisher, rest) = nlri[2..].split_at(8);
    let (source, rest) = rest[1..].split_at(usize::from(rest[0]) / 8);
    let (group, originator) = rest[1..].split_at(usize::from(rest[0]) / 8);
    let attribute = &place[2 + nlri.len()..][..usize::from(place[1])];
    (distinguisher == wish.distinguisher && originator == wish.originator).then(|| Wanted {
        key: (number(source), number(group)),
        source,
        group,
        attribute,
    })
}

/// # Safety
/// As `mvpn.h` says: each pointer is valid for the length beside it, and the output overlaps nothing.
#[allow(clippy::too_many_arguments)]
#[inline(never)]
pub unsafe extern "C" fn plan(
    afi: u16,
    prefixes: *const u8,
    prefixes_len: usize,
    originator: *const u8,
    originator_len: usize,
    distinguisher: *const u8,
    distinguisher_len: usize,
    flows: *const u8,
    flows_len: usize,
    output: *mut u8,
    output_len: usize,
) -> Planned {
    let (prefixes, originator) = (lent(prefixes, prefixes_len), lent(originator, originator_len));
    let (distinguisher, flows) = (lent(distinguisher, distinguisher_len), lent(flows, flows_len));
    let wish = Wish { afi, prefixes, originator, distinguisher, flows };
    let mut flows = [NO_FLOW; MOST_FLOWS];
    let refusal = |number| Planned { number, routes: 0 };
    let count = match read(&wish, 0, &mut flows) {
        Ok(count) => count,
        Err(number) => return refusal(number),
    };
    if output_len < PLACE * count {
        return refusal(SPACE);
    }
    let (places, _) = std::slice::from_raw_parts_mut(output, output_len).as_chunks_mut::<PLACE>();
    Planned { number: DONE, routes: propose(&wish, &mut flows[..count], places) as u32 }
}

/// Writes a (C-*,C-*) route with the attribute that most flows want, and a route for each flow that wants another; how many.
#[inline(always)]
fn propose(wish: &Wish, flows: &mut [Wanted], places: &mut [Place]) -> usize {
    let different = different(flows);
    let flows = &mut flows[..different];
    let Some(commonest) = commonest(flows) else { return 0 };
    write(wish, &[], &[], commonest, &mut places[0]);
    let mut routes = 1;
    for flow in flows.iter().filter(|flow| flow.attribute != commonest) {
        write(wish, flow.source, flow.group, flow.attribute, &mut places[routes]);
        routes += 1;
    }
    routes
}

/// Brings the different ones of sorted flows to the front; how many they are.
#[inline(always)]
fn different(flows: &mut [Wanted]) -> usize {
    let mut kept = 0;
    for at in 0..flows.len() {
        if kept == 0 || flows[kept - 1].key != flows[at].key {
            flows[kept] = flows[at];
            kept += 1;
        }
    }
    kept
}

/// The attribute that most of these different flows want.
#[inline(always)]
fn commonest<'a>(flows: &mut [Wanted<'a>]) -> Option<&'a [u8]> {
    flows.sort_unstable_by_key(|flow| flow.attribute);
    let runs = flows.chunk_by(|left, right| left.attribute == right.attribute);
    runs.max_by_key(|run| run.len()).map(|run| run[0].attribute)
}

/// Writes a place whole, its mark 0.
#[inline(always)]
fn write(wish: &Wish, source: &[u8], group: &[u8], attribute: &[u8], place: &mut Place) {
    let size = 12 + source.len() + group.len() + wish.originator.len();
    let mut at = 4;
    let mut put = |octets: &[u8]| {
        place[at..at + octets.len()].copy_from_slice(octets);
        at += octets.len();
    };
    put(wish.distinguisher);
    put(&[8 * source.len() as u8]);
    put(source);
    put(&[8 * group.len() as u8]);
    put(group);
    put(wish.originator);
    put(attribute);
    place[at..].fill(0);
    place[..4].copy_from_slice(&[size as u8, attribute.len() as u8, 3, size as u8 - 2]);
}
