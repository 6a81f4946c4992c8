//! `mvpn_match_shared` in plain Rust.

use super::{
    family_size,
    flow::{answer, lowest, Taken, OUTPUT},
    group::{class, SSM},
    lent,
    list::{count, field},
    shape::single,
    sound::{sound, Sound},
    DONE, FLOW, KIND, LONG, SHORT, SPACE, TABLE,
};
use crate::ffi::{Matched, SharedTree};

const MOST_ITEMS: usize = 256;

const SOURCE_ACTIVE: u8 = 5;

/// # Safety
/// As `mvpn.h` says: each pointer is valid for the length beside it, and the output overlaps nothing.
#[allow(clippy::too_many_arguments)]
#[inline(never)]
pub unsafe extern "C" fn match_shared(
    table: *const u8,
    table_len: usize,
    prefixes: *const u8,
    prefixes_len: usize,
    router: *const u8,
    router_len: usize,
    group: *const u8,
    group_len: usize,
    facts: SharedTree,
    source_actives: *const u8,
    source_actives_len: usize,
    states: *const u8,
    states_len: usize,
    output: *mut u8,
    output_len: usize,
) -> Matched {
    let output = std::slice::from_raw_parts_mut(output, output_len);
    let told = Told {
        prefixes: lent(prefixes, prefixes_len),
        router: lent(router, router_len),
        group: lent(group, group_len),
        facts,
        source_actives: lent(source_actives, source_actives_len),
        states: lent(states, states_len),
    };
    let taken = received(lent(table, table_len), &told, output.len());
    answer(taken, output)
}

/// The arguments but for the table and the output.
struct Told<'a> {
    prefixes: &'a [u8],
    router: &'a [u8],
    group: &'a [u8],
    facts: SharedTree,
    source_actives: &'a [u8],
    states: &'a [u8],
}

/// The tier and the route that the shared tree takes, or TABLE, RANGE or SHORT of the prefixes, LONG, SHORT, FLOW, a reading number
/// or KIND, SPACE.
#[inline(always)]
fn received<'a>(table: &'a [u8], told: &Told, room: usize) -> Taken<'a> {
    let Sound { afi, taken } = sound(table).ok_or(TABLE)?;
    let family = family_size(afi);
    let (number, class) = class(afi, told.prefixes, told.group);
    if !matches!(number, DONE | FLOW) {
        return Err(number);
    }
    if !judge_lists(family, told)? || number != DONE || !is_router(told.router) {
        return Err(FLOW);
    }
    items(told.source_actives).try_for_each(|[_, nlri]| judge_route(family, nlri))?;
    if room < OUTPUT {
        return Err(SPACE);
    }
    let SharedTree { upstream, bidirectional, source_active_unused } = told.facts;
    let fact = upstream | bidirectional | source_active_unused != 0;
    let without_state = || if family == 4 { is_without_state::<4>(told) } else { is_without_state::<16>(told) };
    if class == SSM || !fact && !without_state() {
        return Ok(None);
    }
    let route = |tier, group| Some((tier, lowest(taken, &[], group, told.router)?));
    Ok(route(3, told.group).or_else(|| route(4, &[])))
}

#[inline(always)]
fn is_router(address: &[u8]) -> bool {
    matches!(address.len(), 4 | 16)
}

/// LONG, SHORT; else whether every listed address has a size that it may have.
#[inline(always)]
fn judge_lists(family: usize, told: &Told) -> Result<bool, u32> {
    let Told { source_actives, states, .. } = told;
    if count(source_actives) > MOST_ITEMS || count(states) > MOST_ITEMS {
        return Err(LONG);
    }
    let originators = every(source_actives, |[originator, _]| is_router(originator));
    let addresses = every(states, |[source, group]| source.len() == family && group.len() == family);
    match (originators, addresses) {
        (Some(originators), Some(addresses)) => Ok(originators && addresses),
        _ => Err(SHORT),
    }
}

/// NLRI reading with no octets after it, then KIND.
#[inline(always)]
fn judge_route(family: usize, nlri: &[u8]) -> Result<(), u32> {
    match single(family, nlri)?.route_type {
        SOURCE_ACTIVE => Ok(()),
        _ => Err(KIND),
    }
}

/// Whether a Source Active route of the PE for the group has no state; every item is known to be good.
#[inline(always)]
fn is_without_state<const FAMILY: usize>(told: &Told) -> bool {
    let size = 4 + 2 * FAMILY;
    let states = &told.states[2..][..count(told.states) * size];
    items(told.source_actives).any(|[originator, nlri]| {
        let (source, group) = (&nlri[11..][..FAMILY], &nlri[12 + FAMILY..]);
        let is_state = |state: &[u8]| state[2..][..FAMILY] == *source && state[4 + FAMILY..] == *group;
        originator == told.router && group == told.group && !states.chunks_exact(size).any(is_state)
    })
}

/// Whether each item of a list is as asked; none where the list ends before its items do.
#[inline(always)]
fn every(list: &[u8], asked: impl Fn([&[u8]; 2]) -> bool) -> Option<bool> {
    let mut rest = list.get(2..)?;
    let mut every = true;
    for _ in 0..count(list) {
        every &= asked([field(&mut rest)?, field(&mut rest)?]);
    }
    Some(every)
}

/// The items of a list that holds them all.
#[inline(always)]
fn items(list: &[u8]) -> impl Iterator<Item = [&[u8]; 2]> {
    let mut rest = &list[2..];
    (0..count(list)).map_while(move |_| Some([field(&mut rest)?, field(&mut rest)?]))
}
