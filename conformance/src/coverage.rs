//! What the comparison has met: the numbers of each call, route types, families, tunnel types, group classes, outcomes, routes
//! that went, marks, what became of places, tiers, what Leaves are to a bit string, kinds of sequence, what changes do to answers, and answers of several tables.

use crate::second::{
    bier::{leaves::Standing, packet::Blamed},
    groups::prefixes::MOST_PREFIXES,
    matches::disturbance::Effect,
    plan::judge::Objection,
    table::salvage::Fate,
};
use std::collections::BTreeMap;

/// Each row must be met this often.
pub const LEAST: u64 = 100;

#[derive(Clone, Copy, Debug, PartialEq, Eq, PartialOrd, Ord)]
pub enum Call {
    NlriRead,
    NlriWrite,
    Step,
    Walk,
    PiecesStart,
    PiecesFeed,
    PiecesFinish,
    GroupClass,
    AttributeRead,
    AttributeWrite,
    Make,
    Install,
    Withdraw,
    Mark,
    Sweep,
    Match,
    Explain,
    Judge,
    Plan,
    Next,
    TableInfo,
    Salvage,
    MatchShared,
    BierString,
    /// A call in a sequence on one table.
    Sequence,
    /// A match before a change of its table and after it.
    Disturbance,
    /// A match, or a change, where routes stand in several tables.
    Splitting,
}

/// The calls that change a table that is made.
#[derive(Clone, Copy, Debug, PartialEq, Eq, PartialOrd, Ord)]
pub enum Change {
    Install,
    Withdraw,
    Mark,
    Sweep,
}

#[derive(Clone, Copy, Debug, PartialEq, Eq, PartialOrd, Ord)]
pub enum Seen {
    Number(u32),
    /// An accepted route type and its AFI.
    Route(usize, u16),
    /// An accepted S-PMSI route: AFI, wildcard source, wildcard group, octets of the originator.
    SPmsi(u16, bool, bool, usize),
    /// An accepted Leaf: AFI, route type of its key, octets of the originator.
    Leaf(u16, u8, usize),
    /// NLRIs that a walk skipped; 3 stands for more.
    Skipped(u32),
    /// AFI, and how many of them were discarded; 3 stands for more.
    Discarded(u16, usize),
    /// An accepted FEC element: AFI, elements one inside the other.
    Nest(u16, usize),
    /// A step at the run's end.
    End,
    /// Feeds that it took to give an NLRI; 3 stands for more.
    Feeds(usize),
    /// A feed of no octets.
    NoOctets,
    /// A feed of a reader that is finished.
    Finished,
    /// A reader's state that no call made.
    Forged,
    /// AFI, prefixes given, and class.
    Class(u16, usize, u32),
    Tunnel(u32),
    /// Tunnel type, FEC type and address family.
    Fec(u32, u32, u32),
    /// A table made or looked into, or a route withdrawn: AFI.
    Family(u16),
    /// AFI and outcome of an install.
    Outcome(u16, u32),
    /// AFI and tier of a match of any kind.
    Tier(u16, u32),
    /// AFI, and how many routes of a proposal are accepted; 3 stands for more.
    Accepted(u16, usize),
    /// AFI, and why a proposal is not accepted.
    Objected(u16, Objection),
    /// AFI, and a proposal that is accepted by its prefixes and not by the standard range, or the other way round.
    TurnedPlan(u16, bool),
    /// AFI, and flows of a plan as listed.
    Flows(u16, usize),
    /// A plan in which a flow is listed again: AFI.
    ListedAgain(u16),
    /// AFI, and how many routes a planner proposed; 3 stands for more.
    Proposed(u16, u32),
    /// AFI, and whether these were as many as it may propose.
    AsMany(u16, bool),
    /// AFI, and whether a route comes next.
    Follows(u16, bool),
    /// AFI, and the mark of the route that comes next.
    Stale(u16, u32),
    /// AFI, and what became of a place of the memory that was salvaged.
    Fate(u16, Fate),
    /// AFI, and places of the memory that was salvaged.
    Salvaged(u16, usize),
    /// AFI, and how many places a salvage dropped; 3 stands for more.
    Dropped(u16, u32),
    /// AFI, and the mark of a route that a salvage kept.
    KeptMark(u16, u8),
    /// AFI, and whether a place that was kept stands past the count of the header.
    PastCount(u16, bool),
    /// A salvage that puts routes into another order: AFI.
    Reordered(u16),
    /// A sound table that a salvage gives back unchanged: AFI.
    Unchanged(u16),
    /// AFI, and how many routes went with a mark or a sweep; 3 stands for more.
    Gone(u16, u32),
    /// AFI and tier of a match of any kind that takes a marked route.
    StaleTaken(u16, u32),
    /// AFI and tiers of a match of any kind: by the standard range, and another one by its prefixes.
    Turned(u16, u32, u32),
    /// AFI, whether the premise of demand 3 holds, and a match of a sequence with other prefixes than its router's match before.
    OtherPrefixes(u16, bool),
    /// A tier and the reason told of it.
    Reason(u32, u32),
    /// AFI and tier of a match of either kind that passes a route over which names no tunnel.
    PassedOver(u16, u32),
    /// A route that names no tunnel, installed in a sequence: AFI.
    NoTunnel(u16),
    /// AFI and places of a sequence's table, and whether the premise of demand 3 holds.
    Places(u16, usize, bool),
    /// A call of a sequence that belongs to nobody.
    Nobody,
    /// AFI, whether the premise of demand 3 holds, and an install that took a mark off or, where it was refused, did not.
    Renewed(u16, bool, bool),
    /// AFI, whether the premise holds, and a withdrawal of a marked route.
    StaleWithdrawn(u16, bool),
    /// AFI, whether the premise holds, whether by a mark, and whether routes went.
    Restarted(u16, bool, bool, bool),
    /// AFI and tier of a sequence's match for a shared tree.
    SharedTree(u16, u32),
    /// AFI, whether of a shared tree, and what a change does to the answer.
    Effect(u16, bool, Change, Effect),
    /// AFI, a change, whether by it one asks again, and whether the answer is another.
    AskedAgain(u16, Change, bool, bool),
    /// AFI, and whether the group has another class by other prefixes, and whether the answer is another.
    OtherClass(u16, bool, bool),
    /// AFI, tier of a match of any kind, and how many of several tables were asked for it.
    OfTables(u16, u32, usize),
    /// What a refusal of a bit string blames, and its number.
    Blamed(Blamed, u32),
    /// AFI, and how many Leaves a bit string was made of.
    Leaves(u16, usize),
    /// AFI, and how many egress routers a bit string has.
    Routers(u16, u32),
    /// AFI, and the set of a bit string that has egress routers.
    OfSet(u16, u8),
    /// AFI, and whether a Leaf counts for a bit string, or why not.
    Counting(u16, Standing),
    /// AFI, whether a Leaf that counts is of the set asked, and whether its BFR-id came before.
    Egress(u16, bool, bool),
    /// Octets of the BFR-prefix of a route, and of a Leaf that counts.
    Prefixes(usize, usize),
    /// A full table that was made larger: AFI.
    Grown(u16),
    /// AFI, and a mark or a sweep on several tables, by which routes went.
    WentOfTables(u16, Change),
}

/// The numbers that each call can give (document 01, "The numbers a call gives back"; document 02).
const NUMBERS: [(Call, &[u32]); 23] = [
    (Call::NlriRead, &[0, 1, 2, 3, 4, 5, 7, 10, 17, 19]),
    (Call::NlriWrite, &[0, 2, 4, 5, 7, 8, 10, 16, 17, 19]),
    (Call::Step, &[0, 1, 2, 3, 4, 5, 7, 8, 10, 17, 19]),
    (Call::Walk, &[0, 1, 2, 3, 4, 5, 7, 8, 10, 17, 19]),
    (Call::PiecesStart, &[0, 10]),
    (Call::PiecesFinish, &[0, 1, 2, 3, 4, 5, 7, 8, 10, 17, 19]),
    (Call::GroupClass, &[0, 1, 10, 15, 18]),
    (Call::AttributeRead, &[0, 1, 6, 7, 8]),
    (Call::AttributeWrite, &[0, 6, 7, 8, 9, 16]),
    (Call::Make, &[0, 10, 11]),
    (Call::Install, &[0, 1, 2, 3, 4, 5, 6, 7, 8, 9, 11, 12, 13, 17, 19]),
    (Call::Withdraw, &[0, 1, 2, 3, 4, 5, 7, 11, 12, 14, 17, 19]),
    (Call::Mark, &[0, 11, 15]),
    (Call::Sweep, &[0, 11, 15]),
    (Call::Match, &[0, 1, 11, 15, 16, 18]),
    (Call::Explain, &[0, 1, 11, 15, 16, 18]),
    (Call::Judge, &[0, 1, 6, 7, 8, 9, 10, 15, 18, 20]),
    (Call::Plan, &[0, 1, 6, 7, 8, 9, 10, 15, 16, 18, 20]),
    (Call::Next, &[0, 11, 16]),
    (Call::TableInfo, &[0, 11]),
    (Call::Salvage, &[0, 10, 11, 16]),
    (Call::MatchShared, &[0, 1, 2, 3, 4, 5, 7, 8, 11, 12, 15, 16, 17, 18, 19]),
    (Call::BierString, &[0, 1, 2, 3, 4, 5, 6, 7, 8, 9, 10, 12, 16, 17, 19]),
];

/// The numbers of flows of which plans must be met.
pub const FLOWS: [usize; 6] = [0, 1, 2, 3, 63, 64];

/// The numbers of places that sequences and table cases use.
pub const PLACES: [usize; 5] = [0, 1, 2, 16, 500];

/// The numbers of places of memory that is salvaged.
pub const SALVAGED: [usize; 6] = [0, 1, 2, 3, 16, 500];

/// The numbers of Leaves and of egress routers, and the sets, that bit strings must have had; and what each of their arguments can be
/// refused for.
pub const LEAVES: [usize; 7] = [0, 1, 2, 3, 64, 1_023, 1_024];
const ROUTERS: [u32; 6] = [0, 1, 2, 3, 255, 256];
const SETS: [u8; 6] = [0, 1, 2, 128, 254, 255];
const BLAMED: [(Blamed, &[u32]); 4] = [
    (Blamed::Route, &[1, 2, 3, 4, 5, 6, 7, 8, 9, 10, 12, 17, 19]),
    (Blamed::List, &[1, 8]),
    (Blamed::Leaf, &[1, 2, 3, 4, 5, 6, 7, 8, 12, 17, 19]),
    (Blamed::Output, &[16]),
];

const TUNNELS: [u32; 9] = [0, 1, 2, 3, 4, 5, 6, 7, 11];

/// The reasons that can be told of each tier: no class is wrong for the first and the last, and none is before the first.
const REASONS: [(u32, &[u32]); 4] = [(1, &[1, 2]), (2, &[1, 2, 3, 4]), (3, &[1, 2, 3, 4]), (4, &[1, 2, 4])];

/// The tiers between which prefixes can turn a flow's match, and a shared tree's.
const TURNS: [(u32, u32); 10] = [(2, 3), (2, 4), (2, 0), (4, 3), (0, 3), (3, 2), (3, 4), (3, 0), (4, 2), (0, 2)];
const SHARED_TURNS: [(u32, u32); 4] = [(3, 0), (4, 0), (0, 3), (0, 4)];

#[derive(Default)]
pub struct Coverage {
    rows: BTreeMap<(Call, Seen), u64>,
}

impl Coverage {
    pub fn count(&mut self, call: Call, seen: Seen) {
        *self.rows.entry((call, seen)).or_default() += 1;
    }

    /// The rows that were met too rarely, with their counts.
    pub fn unmet(&self) -> Vec<((Call, Seen), u64)> {
        let met = |row: &(Call, Seen)| self.rows.get(row).copied().unwrap_or(0);
        required().into_iter().map(|row| (row, met(&row))).filter(|(_, count)| *count < LEAST).collect()
    }

    /// One line for each row.
    pub fn report(&self) -> String {
        self.rows.iter().map(|((call, seen), count)| format!("  {call:?} {seen:?}: {count}\n")).collect()
    }
}

fn required() -> Vec<(Call, Seen)> {
    let numbers =
        NUMBERS.iter().flat_map(|(call, numbers)| numbers.iter().map(|number| (*call, Seen::Number(*number))));
    let families = [1, 2].into_iter().flat_map(required_of_family);
    let tunnels = [Call::AttributeRead, Call::AttributeWrite]
        .into_iter()
        .flat_map(|call| TUNNELS.map(|tunnel_type| (call, Seen::Tunnel(tunnel_type))));
    let elements = [(2, 6), (7, 7), (7, 8)]
        .into_iter()
        .flat_map(|(tunnel, element)| [1, 2].map(|family| (Call::AttributeRead, Seen::Fec(tunnel, element, family))));
    let tables = [1, 2].into_iter().flat_map(required_of_tables);
    let single = [(Call::Step, Seen::End), (Call::Sequence, Seen::Nobody)];
    let fed = [Seen::Feeds(1), Seen::Feeds(2), Seen::Feeds(3), Seen::NoOctets, Seen::Finished, Seen::Forged];
    let fed = fed.map(|seen| (Call::PiecesFeed, seen));
    let skipped =
        [Call::Walk, Call::PiecesFinish].into_iter().flat_map(|call| [0, 1, 2, 3].map(|it| (call, Seen::Skipped(it))));
    let told = REASONS.iter().flat_map(|(tier, reasons)| reasons.iter().map(|reason| Seen::Reason(*tier, *reason)));
    let told = told.map(|seen| (Call::Explain, seen));
    numbers
        .chain(families)
        .chain(tunnels)
        .chain(elements)
        .chain(tables)
        .chain(single)
        .chain(fed)
        .chain(skipped)
        .chain(told)
        .chain(required_of_strings())
        .collect()
}

fn required_of_tables(afi: u16) -> Vec<(Call, Seen)> {
    let mut rows: Vec<_> = [Call::Make, Call::Withdraw, Call::TableInfo].map(|call| (call, Seen::Family(afi))).to_vec();
    rows.extend([true, false].map(|follows| (Call::Next, Seen::Follows(afi, follows))));
    rows.extend([0, 1].map(|mark| (Call::Next, Seen::Stale(afi, mark))));
    rows.extend((1..=2).map(|outcome| (Call::Install, Seen::Outcome(afi, outcome))));
    for gone in 0..=3 {
        rows.extend([Call::Mark, Call::Sweep].map(|call| (call, Seen::Gone(afi, gone))));
    }
    for tier in 1..=4 {
        rows.extend([Call::Match, Call::Explain].map(|call| (call, Seen::StaleTaken(afi, tier))));
    }
    rows.extend([3, 4].map(|tier| (Call::MatchShared, Seen::StaleTaken(afi, tier))));
    for (before, after) in TURNS {
        rows.extend([Call::Match, Call::Explain].map(|call| (call, Seen::Turned(afi, before, after))));
    }
    for (before, after) in SHARED_TURNS {
        rows.push((Call::MatchShared, Seen::Turned(afi, before, after)));
    }
    for premise in [true, false] {
        rows.push((Call::Sequence, Seen::OtherPrefixes(afi, premise)));
        let changes =
            [Seen::Renewed(afi, premise, true), Seen::Renewed(afi, premise, false), Seen::StaleWithdrawn(afi, premise)];
        rows.extend(changes.map(|seen| (Call::Sequence, seen)));
        for (mark, went) in [(true, true), (true, false), (false, true), (false, false)] {
            rows.push((Call::Sequence, Seen::Restarted(afi, premise, mark, went)));
        }
    }
    for tier in 0..=4 {
        rows.extend([Seen::Tier(afi, tier), Seen::PassedOver(afi, tier)].map(|seen| (Call::Match, seen)));
        rows.push((Call::Explain, Seen::Tier(afi, tier)));
    }
    for tier in [0, 3, 4] {
        rows.extend([Seen::Tier(afi, tier), Seen::PassedOver(afi, tier)].map(|seen| (Call::MatchShared, seen)));
        rows.push((Call::Sequence, Seen::SharedTree(afi, tier)));
    }
    rows.push((Call::Sequence, Seen::NoTunnel(afi)));
    for places in PLACES {
        rows.extend([true, false].map(|premise| (Call::Sequence, Seen::Places(afi, places, premise))));
    }
    rows.extend(required_of_plans(afi));
    rows.extend(required_of_salvage(afi));
    rows.extend(required_of_changes(afi));
    rows.extend(required_of_several(afi));
    rows
}

/// What a judge says, and by which routes; and what a planner is asked, and proposes.
fn required_of_plans(afi: u16) -> Vec<(Call, Seen)> {
    let objected = Objection::ALL.map(|objection| Seen::Objected(afi, objection));
    let accepted = (0..=3).map(|routes| Seen::Accepted(afi, routes));
    let tiers = (1..=4).map(|tier| Seen::Tier(afi, tier));
    let turned = [true, false].map(|accepted| Seen::TurnedPlan(afi, accepted));
    let judged = objected.into_iter().chain(accepted).chain(tiers).chain(turned).map(|seen| (Call::Judge, seen));
    let proposed = (0..=3).map(|routes| Seen::Proposed(afi, routes));
    let planned = FLOWS.map(|flows| Seen::Flows(afi, flows)).into_iter().chain(proposed);
    let planned = planned.chain([Seen::ListedAgain(afi), Seen::AsMany(afi, true)]).map(|seen| (Call::Plan, seen));
    judged.chain(planned).collect()
}

/// What can become of places, and of a table.
fn required_of_salvage(afi: u16) -> Vec<(Call, Seen)> {
    let fates = Fate::ALL.map(|fate| Seen::Fate(afi, fate));
    let marks = [0, 1].map(|mark| Seen::KeptMark(afi, mark));
    let past = [true, false].map(|past| Seen::PastCount(afi, past));
    let rows = fates.into_iter().chain(marks).chain(past).chain([Seen::Reordered(afi), Seen::Unchanged(afi)]);
    let rows = rows.chain(SALVAGED.map(|places| Seen::Salvaged(afi, places)));
    rows.chain((0..=3).map(|dropped| Seen::Dropped(afi, dropped))).map(|seen| (Call::Salvage, seen)).collect()
}

/// What bit strings are made of, and what is refused.
fn required_of_strings() -> Vec<(Call, Seen)> {
    let blamed = BLAMED.iter().flat_map(|(it, numbers)| numbers.iter().map(|number| Seen::Blamed(*it, *number)));
    let prefixes = [(4, 4), (4, 16), (16, 4), (16, 16)].map(|(of_route, of_leaf)| Seen::Prefixes(of_route, of_leaf));
    let mut rows: Vec<Seen> = blamed.chain(prefixes).collect();
    for afi in [1, 2] {
        rows.extend(LEAVES.map(|leaves| Seen::Leaves(afi, leaves)));
        rows.extend(ROUTERS.map(|routers| Seen::Routers(afi, routers)));
        rows.extend(SETS.map(|set| Seen::OfSet(afi, set)));
        rows.extend(Standing::ALL.map(|standing| Seen::Counting(afi, standing)));
        let egress = [(true, true), (true, false), (false, true), (false, false)];
        rows.extend(egress.map(|(of_set, again)| Seen::Egress(afi, of_set, again)));
    }
    rows.into_iter().map(|seen| (Call::BierString, seen)).collect()
}

/// What each change can do to an answer, and who asks again.
fn required_of_changes(afi: u16) -> Vec<(Call, Seen)> {
    let changes: [(Change, &[Effect]); 4] = [
        (Change::Install, &[Effect::Refused, Effect::Unfelt, Effect::Unnamed]),
        (Change::Withdraw, &[Effect::Refused, Effect::Unfelt, Effect::Withdrawn]),
        (Change::Mark, &[Effect::Refused, Effect::Unfelt, Effect::Went]),
        (Change::Sweep, &[Effect::Refused, Effect::Unfelt, Effect::Went]),
    ];
    let mut rows = Vec::new();
    for (change, effects) in changes {
        for shared in [true, false] {
            rows.extend(effects.iter().map(|effect| Seen::Effect(afi, shared, change, *effect)));
        }
        rows.extend([(true, true), (false, false)].map(|(asks, other)| Seen::AskedAgain(afi, change, asks, other)));
        // Who has the answer withdrawn has always another one afterwards.
        if change != Change::Withdraw {
            rows.push(Seen::AskedAgain(afi, change, true, false));
        }
    }
    for tier in 1..=4 {
        for shared in [true, false].into_iter().filter(|shared| !shared || tier >= 3) {
            let effects = [Effect::Becomes(tier), Effect::Replaced(tier)];
            rows.extend(effects.map(|effect| Seen::Effect(afi, shared, Change::Install, effect)));
        }
    }
    rows.extend(
        [(true, true), (true, false), (false, false)].map(|(class, other)| Seen::OtherClass(afi, class, other)),
    );
    rows.into_iter().map(|seen| (Call::Disturbance, seen)).collect()
}

/// What several tables answer: a flow's route comes from the small one in tier 1, and else from the other.
fn required_of_several(afi: u16) -> Vec<(Call, Seen)> {
    let flows = [(1, 1), (2, 2), (3, 2), (4, 2), (0, 2)];
    let trees = [(3, 1), (4, 1), (0, 1)];
    let asked = flows.into_iter().chain(trees).map(|(tier, tables)| Seen::OfTables(afi, tier, tables));
    let others =
        [Seen::Grown(afi)].into_iter().chain([Change::Mark, Change::Sweep].map(|it| Seen::WentOfTables(afi, it)));
    asked.chain(others).map(|seen| (Call::Splitting, seen)).collect()
}

fn required_of_family(afi: u16) -> Vec<(Call, Seen)> {
    let classes = (0..=MOST_PREFIXES).flat_map(|given| [1, 2].map(|class| Seen::Class(afi, given, class)));
    let mut rows: Vec<_> = classes.map(|seen| (Call::GroupClass, seen)).collect();
    for call in [Call::NlriRead, Call::NlriWrite, Call::Step, Call::PiecesFeed] {
        let types = (1..=7).chain([0x43, 0x44, 0x47]);
        rows.extend(types.map(|route_type| (call, Seen::Route(route_type, afi))));
    }
    rows.extend((1..=4).map(|depth| (Call::NlriRead, Seen::Nest(afi, depth))));
    for discarded in 1..=3 {
        rows.extend([Call::Walk, Call::PiecesFinish].map(|call| (call, Seen::Discarded(afi, discarded))));
    }
    for originator in [4, 16] {
        for (source, group) in [(false, false), (false, true), (true, false), (true, true)] {
            rows.push((Call::NlriRead, Seen::SPmsi(afi, source, group, originator)));
        }
        rows.extend([1, 2, 3, 0x43].map(|key| (Call::NlriRead, Seen::Leaf(afi, key, originator))));
    }
    rows
}
