//! The calls as C declares them, and one way to make those that have many arguments.

use super::types::{
    AttributeReading, Egress, Explained, Fed, Following, Group, Installed, Judged, Matched, Nlri, NlriReading, Pieces,
    Planned, Restarted, Salvaged, SharedTree, Stepped, TableInfo, Walked, Written,
};

pub type NlriRead = unsafe extern "C" fn(u16, *const u8, usize) -> NlriReading;
pub type NlriWrite = unsafe extern "C" fn(u16, Nlri, *const u8, usize, *const u8, usize, *mut u8, usize) -> Written;
pub type Step = unsafe extern "C" fn(u16, *const u8, usize, usize) -> Stepped;
pub type Walk = unsafe extern "C" fn(u16, u32, *const u8, usize) -> Walked;
pub type PiecesStart = unsafe extern "C" fn(u16, u32) -> Pieces;
pub type PiecesFeed = unsafe extern "C" fn(Pieces, *mut u8, *const u8, usize) -> Fed;
pub type PiecesFinish = unsafe extern "C" fn(Pieces) -> Pieces;
pub type GroupClass = unsafe extern "C" fn(u16, *const u8, usize, *const u8, usize) -> Group;
pub type AttributeRead = unsafe extern "C" fn(*const u8, usize) -> AttributeReading;
pub type AttributeWrite = unsafe extern "C" fn(u8, u8, u32, *const u8, usize, *mut u8, usize) -> Written;
pub type Make = unsafe extern "C" fn(u16, *mut u8, usize) -> u32;
pub type Install = unsafe extern "C" fn(*mut u8, usize, *const u8, usize, *const u8, usize) -> Installed;
pub type Withdraw = unsafe extern "C" fn(*mut u8, usize, *const u8, usize) -> u32;
pub type Restart = unsafe extern "C" fn(*mut u8, usize, *const u8, usize) -> Restarted;
pub type Match = OnFlow<Matched>;
pub type Explain = OnFlow<Explained>;
pub type Next = unsafe extern "C" fn(*const u8, usize, *const u8, usize, *mut u8, usize) -> Following;
pub type ReadTableInfo = unsafe extern "C" fn(*const u8, usize) -> TableInfo;
pub type Judge = OnWish<*const u8, Judged>;
pub type Plan = OnWish<*mut u8, Planned>;
pub type Salvage = unsafe extern "C" fn(u16, *const u8, usize, *mut u8, usize, *mut u8, usize) -> Salvaged;
#[rustfmt::skip]
pub type MatchShared = unsafe extern "C" fn(
    *const u8, usize, *const u8, usize, *const u8, usize, *const u8, usize, SharedTree, *const u8, usize,
    *const u8, usize, *mut u8, usize,
) -> Matched;
#[rustfmt::skip]
pub type BierString = unsafe extern "C" fn(
    u16, *const u8, usize, *const u8, usize, u8, *const u8, usize, *mut u8, usize,
) -> Egress;

/// The calls that have a match's arguments.
#[rustfmt::skip]
pub type OnFlow<Answer> = unsafe extern "C" fn(
    *const u8, usize, *const u8, usize, *const u8, usize, *const u8, usize, *const u8, usize, *mut u8, usize,
) -> Answer;
/// The calls that have a plan's arguments; `Places` points to the places, which a judge reads and a planner writes.
#[rustfmt::skip]
pub type OnWish<Places, Answer> = unsafe extern "C" fn(
    u16, *const u8, usize, *const u8, usize, *const u8, usize, *const u8, usize, Places, usize,
) -> Answer;

/// Octets as C takes them: where they stand, and how many there are. The second kind is written.
pub type Octets = (*const u8, usize);
pub type Output = (*mut u8, usize);

pub fn octets(lent: &[u8]) -> Octets {
    (lent.as_ptr(), lent.len())
}

pub fn output(lent: &mut [u8]) -> Output {
    (lent.as_mut_ptr(), lent.len())
}

/// A match or an explanation. `flow` is the router, the source and the group.
///
/// # Safety
/// Each pointer is valid for its length, and the output overlaps nothing.
#[inline(always)]
pub unsafe fn on_flow<Answer>(
    call: OnFlow<Answer>,
    table: Octets,
    prefixes: Octets,
    flow: [Octets; 3],
    output: Output,
) -> Answer {
    let [router, source, group] = flow;
    call(
        table.0, table.1, prefixes.0, prefixes.1, router.0, router.1, source.0, source.1, group.0, group.1, output.0,
        output.1,
    )
}

/// A judge or a plan. `wish` is the prefixes, the originator, the distinguisher and the flows.
///
/// # Safety
/// As of a match.
#[inline(always)]
pub unsafe fn on_wish<Places, Answer>(
    call: OnWish<Places, Answer>,
    afi: u16,
    wish: [Octets; 4],
    places: (Places, usize),
) -> Answer {
    let [prefixes, originator, distinguisher, flows] = wish;
    call(
        afi,
        prefixes.0,
        prefixes.1,
        originator.0,
        originator.1,
        distinguisher.0,
        distinguisher.1,
        flows.0,
        flows.1,
        places.0,
        places.1,
    )
}

/// A match for a shared tree. `tree` is the router and the group; `lists` are the Source Active routes and the states.
///
/// # Safety
/// As of a match.
#[inline(always)]
pub unsafe fn on_tree(
    call: MatchShared,
    table: Octets,
    prefixes: Octets,
    tree: [Octets; 2],
    facts: SharedTree,
    lists: [Octets; 2],
    output: Output,
) -> Matched {
    let ([router, group], [source_actives, states]) = (tree, lists);
    call(
        table.0,
        table.1,
        prefixes.0,
        prefixes.1,
        router.0,
        router.1,
        group.0,
        group.1,
        facts,
        source_actives.0,
        source_actives.1,
        states.0,
        states.1,
        output.0,
        output.1,
    )
}

extern "C" {
    pub fn mvpn_nlri_read(afi: u16, nlri: *const u8, nlri_len: usize) -> NlriReading;
    pub fn mvpn_nlri_write(
        afi: u16,
        nlri: Nlri,
        key: *const u8,
        key_len: usize,
        fec: *const u8,
        fec_len: usize,
        output: *mut u8,
        output_len: usize,
    ) -> Written;
    pub fn mvpn_step(afi: u16, run: *const u8, run_len: usize, cursor: usize) -> Stepped;
    pub fn mvpn_walk(afi: u16, mode: u32, run: *const u8, run_len: usize) -> Walked;
    pub fn mvpn_pieces_start(afi: u16, mode: u32) -> Pieces;
    pub fn mvpn_pieces_feed(pieces: Pieces, unfinished: *mut u8, piece: *const u8, piece_len: usize) -> Fed;
    pub fn mvpn_pieces_finish(pieces: Pieces) -> Pieces;
    pub fn mvpn_group_class(
        afi: u16,
        prefixes: *const u8,
        prefixes_len: usize,
        group: *const u8,
        group_len: usize,
    ) -> Group;
    pub fn mvpn_attribute_read(attribute: *const u8, attribute_len: usize) -> AttributeReading;
    pub fn mvpn_attribute_write(
        flags: u8,
        tunnel_type: u8,
        label_field: u32,
        identifier: *const u8,
        identifier_len: usize,
        output: *mut u8,
        output_len: usize,
    ) -> Written;
    pub fn mvpn_make(afi: u16, table: *mut u8, table_len: usize) -> u32;
    pub fn mvpn_install(
        table: *mut u8,
        table_len: usize,
        nlri: *const u8,
        nlri_len: usize,
        attribute: *const u8,
        attribute_len: usize,
    ) -> Installed;
    pub fn mvpn_withdraw(table: *mut u8, table_len: usize, nlri: *const u8, nlri_len: usize) -> u32;
    pub fn mvpn_mark(table: *mut u8, table_len: usize, router: *const u8, router_len: usize) -> Restarted;
    pub fn mvpn_sweep(table: *mut u8, table_len: usize, router: *const u8, router_len: usize) -> Restarted;
    pub fn mvpn_match(
        table: *const u8,
        table_len: usize,
        prefixes: *const u8,
        prefixes_len: usize,
        router: *const u8,
        router_len: usize,
        source: *const u8,
        source_len: usize,
        group: *const u8,
        group_len: usize,
        output: *mut u8,
        output_len: usize,
    ) -> Matched;
    pub fn mvpn_explain(
        table: *const u8,
        table_len: usize,
        prefixes: *const u8,
        prefixes_len: usize,
        router: *const u8,
        router_len: usize,
        source: *const u8,
        source_len: usize,
        group: *const u8,
        group_len: usize,
        output: *mut u8,
        output_len: usize,
    ) -> Explained;
    pub fn mvpn_next(
        table: *const u8,
        table_len: usize,
        nlri: *const u8,
        nlri_len: usize,
        output: *mut u8,
        output_len: usize,
    ) -> Following;
    pub fn mvpn_table_info(table: *const u8, table_len: usize) -> TableInfo;
    pub fn mvpn_judge(
        afi: u16,
        prefixes: *const u8,
        prefixes_len: usize,
        originator: *const u8,
        originator_len: usize,
        distinguisher: *const u8,
        distinguisher_len: usize,
        flows: *const u8,
        flows_len: usize,
        places: *const u8,
        places_len: usize,
    ) -> Judged;
    pub fn mvpn_plan(
        afi: u16,
        prefixes: *const u8,
        prefixes_len: usize,
        originator: *const u8,
        originator_len: usize,
        distinguisher: *const u8,
        distinguisher_len: usize,
        flows: *const u8,
        flows_len: usize,
        output: *mut u8,
        output_len: usize,
    ) -> Planned;
    pub fn mvpn_salvage(
        afi: u16,
        damaged: *const u8,
        damaged_len: usize,
        table: *mut u8,
        table_len: usize,
        dropped: *mut u8,
        dropped_len: usize,
    ) -> Salvaged;
    pub fn mvpn_match_shared(
        table: *const u8,
        table_len: usize,
        prefixes: *const u8,
        prefixes_len: usize,
        router: *const u8,
        router_len: usize,
        group: *const u8,
        group_len: usize,
        facts: SharedTree,
        source_actives: *const u8,
        source_actives_len: usize,
        states: *const u8,
        states_len: usize,
        output: *mut u8,
        output_len: usize,
    ) -> Matched;
    pub fn mvpn_bier_string(
        afi: u16,
        nlri: *const u8,
        nlri_len: usize,
        attribute: *const u8,
        attribute_len: usize,
        set: u8,
        leaves: *const u8,
        leaves_len: usize,
        output: *mut u8,
        output_len: usize,
    ) -> Egress;
}
