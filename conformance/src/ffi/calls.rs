//! A safe function for each call. It takes `Lent` buffers, whose pointer is good for the whole guarded memory: a stray write of the
//! archive is seen by the guards.

use super::{
    raw::{self, Octets, OnFlow},
    types::{
        AttributeReading, Egress, Explained, Fed, Following, Group, Installed, Judged, Matched, Nlri, NlriReading,
        Pieces, Planned, Restarted, Salvaged, SharedTree, Stepped, TableInfo, Walked, Written, UNFINISHED,
    },
};
use crate::lent::Lent;

// Each call below is sound: `Lent` gives a pointer that is valid for its length, and no two of them overlap.

fn octets(lent: &mut Lent) -> Octets {
    (lent.pointer(), lent.len())
}

pub fn nlri_read(afi: u16, nlri: &mut Lent) -> NlriReading {
    unsafe { raw::mvpn_nlri_read(afi, nlri.pointer(), nlri.len()) }
}

pub fn nlri_write(afi: u16, nlri: Nlri, key: &mut Lent, fec: &mut Lent, output: &mut Lent) -> Written {
    let (element, size) = (fec.pointer(), fec.len());
    unsafe { raw::mvpn_nlri_write(afi, nlri, key.pointer(), key.len(), element, size, output.pointer(), output.len()) }
}

pub fn step(afi: u16, run: &mut Lent, cursor: usize) -> Stepped {
    unsafe { raw::mvpn_step(afi, run.pointer(), run.len(), cursor) }
}

pub fn walk(afi: u16, mode: u32, run: &mut Lent) -> Walked {
    unsafe { raw::mvpn_walk(afi, mode, run.pointer(), run.len()) }
}

pub fn pieces_start(afi: u16, mode: u32) -> Pieces {
    unsafe { raw::mvpn_pieces_start(afi, mode) }
}

/// `unfinished` has exactly `UNFINISHED` octets.
pub fn pieces_feed(pieces: Pieces, unfinished: &mut Lent, piece: &mut Lent) -> Fed {
    assert_eq!(unfinished.len(), UNFINISHED);
    unsafe { raw::mvpn_pieces_feed(pieces, unfinished.pointer(), piece.pointer(), piece.len()) }
}

pub fn pieces_finish(pieces: Pieces) -> Pieces {
    unsafe { raw::mvpn_pieces_finish(pieces) }
}

pub fn group_class(afi: u16, prefixes: &mut Lent, group: &mut Lent) -> Group {
    unsafe { raw::mvpn_group_class(afi, prefixes.pointer(), prefixes.len(), group.pointer(), group.len()) }
}

pub fn attribute_read(attribute: &mut Lent) -> AttributeReading {
    unsafe { raw::mvpn_attribute_read(attribute.pointer(), attribute.len()) }
}

pub fn attribute_write(
    flags: u8,
    tunnel_type: u8,
    label_field: u32,
    identifier: &mut Lent,
    output: &mut Lent,
) -> Written {
    let (octets, size) = (identifier.pointer(), identifier.len());
    unsafe { raw::mvpn_attribute_write(flags, tunnel_type, label_field, octets, size, output.pointer(), output.len()) }
}

pub fn make(afi: u16, table: &mut Lent) -> u32 {
    unsafe { raw::mvpn_make(afi, table.pointer(), table.len()) }
}

pub fn install(table: &mut Lent, nlri: &mut Lent, attribute: &mut Lent) -> Installed {
    let (octets, size) = (nlri.pointer(), nlri.len());
    unsafe { raw::mvpn_install(table.pointer(), table.len(), octets, size, attribute.pointer(), attribute.len()) }
}

pub fn withdraw(table: &mut Lent, nlri: &mut Lent) -> u32 {
    unsafe { raw::mvpn_withdraw(table.pointer(), table.len(), nlri.pointer(), nlri.len()) }
}

pub fn mark(table: &mut Lent, router: &mut Lent) -> Restarted {
    unsafe { raw::mvpn_mark(table.pointer(), table.len(), router.pointer(), router.len()) }
}

pub fn sweep(table: &mut Lent, router: &mut Lent) -> Restarted {
    unsafe { raw::mvpn_sweep(table.pointer(), table.len(), router.pointer(), router.len()) }
}

/// `flow` is the router, the source and the group.
pub fn match_flow(table: &mut Lent, prefixes: &mut Lent, flow: &mut [Lent; 3], output: &mut Lent) -> Matched {
    on_flow(raw::mvpn_match, table, prefixes, flow, output)
}

/// `flow` as of a match.
pub fn explain(table: &mut Lent, prefixes: &mut Lent, flow: &mut [Lent; 3], output: &mut Lent) -> Explained {
    on_flow(raw::mvpn_explain, table, prefixes, flow, output)
}

fn on_flow<Answer>(
    call: OnFlow<Answer>,
    table: &mut Lent,
    prefixes: &mut Lent,
    flow: &mut [Lent; 3],
    output: &mut Lent,
) -> Answer {
    let flow = flow.each_mut().map(octets);
    unsafe { raw::on_flow(call, octets(table), octets(prefixes), flow, (output.pointer(), output.len())) }
}

pub fn next(table: &mut Lent, nlri: &mut Lent, output: &mut Lent) -> Following {
    let (octets, size) = (nlri.pointer(), nlri.len());
    unsafe { raw::mvpn_next(table.pointer(), table.len(), octets, size, output.pointer(), output.len()) }
}

pub fn table_info(table: &mut Lent) -> TableInfo {
    unsafe { raw::mvpn_table_info(table.pointer(), table.len()) }
}

/// `wish` is the prefixes, the originator, the distinguisher and the flows.
pub fn judge(afi: u16, wish: [&mut Lent; 4], places: &mut Lent) -> Judged {
    unsafe { raw::on_wish(raw::mvpn_judge, afi, wish.map(octets), octets(places)) }
}

/// `wish` as of a judge.
pub fn plan(afi: u16, wish: [&mut Lent; 4], output: &mut Lent) -> Planned {
    unsafe { raw::on_wish(raw::mvpn_plan, afi, wish.map(octets), (output.pointer(), output.len())) }
}

pub fn salvage(afi: u16, damaged: &mut Lent, table: &mut Lent, dropped: &mut Lent) -> Salvaged {
    let (octets, size) = (damaged.pointer(), damaged.len());
    let (list, room) = (dropped.pointer(), dropped.len());
    unsafe { raw::mvpn_salvage(afi, octets, size, table.pointer(), table.len(), list, room) }
}

/// `tree` is the router and the group; `lists` are the Source Active routes and the states.
pub fn match_shared(
    table: &mut Lent,
    prefixes: &mut Lent,
    tree: [&mut Lent; 2],
    facts: SharedTree,
    lists: &mut [Lent; 2],
    output: &mut Lent,
) -> Matched {
    let (tree, lists) = (tree.map(octets), lists.each_mut().map(octets));
    let (table, prefixes, output) = (octets(table), octets(prefixes), (output.pointer(), output.len()));
    unsafe { raw::on_tree(raw::mvpn_match_shared, table, prefixes, tree, facts, lists, output) }
}

/// `route` is the NLRI and the attribute.
pub fn bier_string(afi: u16, route: [&mut Lent; 2], set: u8, leaves: &mut Lent, output: &mut Lent) -> Egress {
    let [nlri, attribute] = route.map(|field| (field.pointer(), field.len()));
    let ((list, size), (place, room)) = ((leaves.pointer(), leaves.len()), (output.pointer(), output.len()));
    unsafe { raw::mvpn_bier_string(afi, nlri.0, nlri.1, attribute.0, attribute.1, set, list, size, place, room) }
}
