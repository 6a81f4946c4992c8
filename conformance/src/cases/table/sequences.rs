//! Mixed calls of several routers on one table, in several orders (document 01, "Mixed calls and each router's book").
//!
//! Where the installs name no more well-formed NLRIs than there are places, each call is compared with its router's
//! book, and the list is run again in other orders that keep each router's own. Elsewhere it is compared with the table. What a
//! list leaves in the table is compared with what its calls and their answers say of each NLRI (document 02, W-208).

use crate::{
    cases::{
        inputs::{
            lists::EMPTY,
            routes::{bad_attributes, bad_nlris, good_attributes, picked, s_pmsi, Addresses},
            samples::GOOD_AFIS,
        },
        shared::matches::{any_facts, UPSTREAM},
    },
    compare::{disagree, Checked, Disagreement, Harness},
    coverage::{Call, Seen, PLACES},
    hexadecimal::encode,
    random::Random,
    second::{
        matches::{
            choice::{Flow, LEAST_OUTPUT},
            shared::Reception,
        },
        nlri::rows::Field,
        table::{
            books::{Books, Router},
            calls::{TableAnswer, TableCall},
            history::Made,
            memory::{size, Table, HEADER, MOST_PLACES, PLACE},
        },
        Second,
    },
};
use std::collections::{BTreeMap, BTreeSet};

/// Runs of a list in other orders: on small tables and on the largest.
const ORDERS: usize = 4;
const ORDERS_OF_LARGEST: usize = 2;

/// Lists of each kind that the calls of one list of calls draw from.
const LISTS: usize = 12;

/// Where the source's length octet stands in an S-PMSI NLRI: behind the header and the distinguisher.
const SOURCE_LENGTH: usize = 10;

/// Calls of sequences on small tables: one for so many random cases.
const CASES_A_CALL: u64 = 10;

/// Marks and sweeps beside twenty other calls, where routers restart now and then, and where they do so again and again.
const SELDOM: usize = 2;
const OFTEN: usize = 10;

/// Lists in which routers restart again and again, the numbers of places in turn.
pub fn restarting(harness: &mut Harness, random: &mut Random, cases: u64) -> Checked {
    let before = harness.sequence_calls;
    while harness.sequence_calls - before < cases / CASES_A_CALL {
        for (afi, places) in GOOD_AFIS.into_iter().flat_map(|afi| [1, 2, 5, 16].map(|places| (afi, places))) {
            let length = 10 + random.below(70);
            let kind = Kind { afi, places, restarts: OFTEN, length };
            both(harness, random, kind)?;
            // A list that keeps the premise is run in several orders, so there are more of the others.
            (0..3).try_for_each(|_| beyond(harness, random, kind))?;
        }
    }
    Ok(())
}

pub fn all(harness: &mut Harness, random: &mut Random, cases: u64) -> Checked {
    for afi in GOOD_AFIS {
        [0, 1, 2].into_iter().try_for_each(|places| short_lists(harness, random, afi, places))?;
    }
    let short = harness.sequence_calls;
    while harness.sequence_calls - short < cases / CASES_A_CALL {
        for afi in GOOD_AFIS {
            for places in PLACES.into_iter().filter(|places| *places < MOST_PLACES) {
                let length = 10 + random.below(70);
                both(harness, random, Kind { afi, places, restarts: SELDOM, length })?;
            }
        }
    }
    let largest = |afi| Kind { afi, places: MOST_PLACES, restarts: SELDOM, length: 1_200 };
    GOOD_AFIS.into_iter().try_for_each(|afi| both(harness, random, largest(afi)))
}

/// Every list of three calls, of these: installs, withdrawals and matches of two routers, also for a shared tree, and
/// calls of nobody.
fn short_lists(harness: &mut Harness, random: &mut Random, afi: u16, places: usize) -> Checked {
    let Addresses { distinguishers, sources, groups, routers, .. } = Addresses::of_family(afi);
    let nlris = [(0, 2), (0, 1), (1, 1)].map(|(router, distinguisher)| {
        s_pmsi(&distinguishers[distinguisher], &sources[0], &groups[0], &routers[router])
    });
    let (good, bad, output) = (good_attributes(), bad_attributes(), random.octets(LEAST_OUTPUT));
    let mut calls = Vec::new();
    // The second NLRI, which has the lowest distinguisher of its router, may name no tunnel.
    for (nlri, other) in nlris.iter().zip([2, 0, 2]) {
        let attributes = [&good[1], &good[other], &bad[8]];
        calls.extend(attributes.map(|attribute| TableCall::Install { nlri, attribute }));
        calls.push(TableCall::Withdraw { nlri });
    }
    for router in [&routers[0][..], &routers[1], &[10, 0, 0]] {
        let flow = Flow { prefixes: EMPTY, router, source: &sources[0], group: &groups[0] };
        calls.push(TableCall::Match { flow, output: &output });
    }
    let wildcards = s_pmsi(&distinguishers[1], &[], &[], &routers[0]);
    calls.extend([
        TableCall::Install { nlri: &wildcards, attribute: &good[3] },
        TableCall::Install { nlri: &wildcards, attribute: &good[0] },
        TableCall::Withdraw { nlri: &wildcards },
    ]);
    for router in [&routers[0][..], &routers[1], &[10, 0, 0]] {
        let (prefixes, group, source_actives, states) = (EMPTY, &groups[2], EMPTY, EMPTY);
        let reception = Reception { prefixes, router, group, facts: UPSTREAM, source_actives, states };
        calls.push(TableCall::MatchShared { reception, output: &output });
    }
    let cut = &nlris[0][..20];
    calls.extend([TableCall::Install { nlri: cut, attribute: &good[1] }, TableCall::Withdraw { nlri: cut }]);
    for (first, second) in calls.iter().flat_map(|first| calls.iter().map(move |second| (first, second))) {
        for third in &calls {
            let list = Sequence::of(afi, places, vec![*first, *second, *third]);
            list.run(harness, random, &[0, 1, 2], None)?;
        }
    }
    Ok(())
}

/// A kind of list: of so many calls, with so many marks and sweeps beside twenty others, on a table of so many places.
#[derive(Clone, Copy)]
struct Kind {
    afi: u16,
    places: usize,
    restarts: usize,
    length: usize,
}

/// A list that keeps the premise of demand 3 and one that does not.
fn both(harness: &mut Harness, random: &mut Random, kind: Kind) -> Checked {
    drawn(harness, random, kind, kind.places)?;
    beyond(harness, random, kind)
}

/// A list that has NLRIs for more than the places.
fn beyond(harness: &mut Harness, random: &mut Random, kind: Kind) -> Checked {
    let over = kind.places + 1 + random.below(kind.places + 2);
    drawn(harness, random, kind, over)
}

/// A list whose installs name so many well-formed NLRIs.
fn drawn(harness: &mut Harness, random: &mut Random, kind: Kind, installed: usize) -> Checked {
    let stock = Stock::new(random, kind.afi, installed, kind.restarts);
    Sequence::new(&stock, random, kind.places, kind.length).compare(harness, random)
}

/// What the calls of a list draw from.
pub struct Stock {
    addresses: Addresses,
    /// The well-formed NLRIs that installs name.
    installed: Vec<Vec<u8>>,
    /// Those of them that a shared tree may take.
    shared: Vec<Vec<u8>>,
    /// Other well-formed NLRIs, for withdrawals.
    absent: Vec<Vec<u8>>,
    bad_nlris: Vec<Vec<u8>>,
    attributes: Vec<Vec<u8>>,
    bad_attributes: Vec<Vec<u8>>,
    /// Lists of prefixes, of Source Active routes and of states.
    prefixes: Vec<Vec<u8>>,
    source_actives: Vec<Vec<u8>>,
    states: Vec<Vec<u8>>,
    outputs: Vec<Vec<u8>>,
    /// Marks and sweeps beside twenty other calls.
    restarts: usize,
}

impl Stock {
    pub fn new(random: &mut Random, afi: u16, installed: usize, restarts: usize) -> Self {
        let addresses = Addresses::of_family(afi);
        let installed = addresses.nlris(random, installed);
        Stock {
            shared: installed.iter().filter(|nlri| nlri[SOURCE_LENGTH] == 0).cloned().collect(),
            installed,
            absent: addresses.nlris(random, 3),
            bad_nlris: bad_nlris(afi),
            attributes: good_attributes(),
            bad_attributes: bad_attributes(),
            prefixes: (0..LISTS).map(|_| addresses.any_prefixes(random)).collect(),
            source_actives: (0..LISTS).map(|_| addresses.source_actives(random)).collect(),
            states: (0..LISTS).map(|_| addresses.states(random)).collect(),
            outputs: [0, 60, 123, 124, 124, 124, 130, 200].map(|size| random.octets(size)).to_vec(),
            addresses,
            restarts,
        }
    }

    fn call(&self, random: &mut Random) -> TableCall<'_> {
        match random.below(20 + self.restarts) {
            0..=7 => TableCall::Install {
                nlri: self.nlri(random, &self.installed),
                attribute: match random.once_in(6) {
                    true => picked(random, &self.bad_attributes),
                    false => picked(random, &self.attributes),
                },
            },
            8..=12 => {
                let well_formed = if random.once_in(6) { &self.absent } else { &self.installed };
                TableCall::Withdraw { nlri: self.nlri(random, well_formed) }
            }
            13..=15 => TableCall::Match { flow: self.flow(random), output: picked(random, &self.outputs) },
            16 => TableCall::Explain { flow: self.flow(random), output: picked(random, &self.outputs) },
            17..=19 => {
                TableCall::MatchShared { reception: self.reception(random), output: picked(random, &self.outputs) }
            }
            other if other % 2 == 0 => TableCall::Mark { router: self.router(random) },
            _ => TableCall::Sweep { router: self.router(random) },
        }
    }

    /// An install, a withdrawal, a mark or a sweep.
    pub fn change(&self, random: &mut Random) -> TableCall<'_> {
        loop {
            match self.call(random) {
                TableCall::Match { .. } | TableCall::Explain { .. } | TableCall::MatchShared { .. } => {}
                change => return change,
            }
        }
    }

    /// A match of any kind; now and then one with an output of any size.
    pub fn asked(&self, random: &mut Random) -> TableCall<'_> {
        let output = match random.once_in(20) {
            true => picked(random, &self.outputs),
            false => self.outputs.iter().find(|output| output.len() >= LEAST_OUTPUT).expect("an output with room"),
        };
        match random.below(5) {
            0 => TableCall::Explain { flow: self.flow(random), output },
            1 | 2 => TableCall::Match { flow: self.flow(random), output },
            _ => TableCall::MatchShared { reception: self.reception(random), output },
        }
    }

    /// A list of prefixes, seldom one that is not well-formed; one in three has none.
    pub fn prefixes(&self, random: &mut Random) -> &[u8] {
        match random.once_in(3) {
            true => EMPTY,
            false => picked(random, &self.prefixes),
        }
    }

    /// A router that restarts, mostly one that may have routes; now and then an address of another size.
    fn router(&self, random: &mut Random) -> &[u8] {
        let any = self.addresses.flow(random);
        let router = match self.installed.is_empty() || random.once_in(4) {
            true => any.router,
            false => self.towards(any, picked(random, &self.installed)).router,
        };
        match random.once_in(12) {
            true => &router[..random.pick(&[0, 3, router.len() - 1])],
            false => router,
        }
    }

    /// One of these NLRIs; now and then, and where there are none, one that is not a well-formed S-PMSI NLRI.
    fn nlri<'a>(&'a self, random: &mut Random, well_formed: &'a [Vec<u8>]) -> &'a [u8] {
        match well_formed.is_empty() || random.once_in(10) {
            true => picked(random, &self.bad_nlris),
            false => picked(random, well_formed),
        }
    }

    /// A flow, half the time one that an installed NLRI may take; now and then one field has another size. Of four flows two have no
    /// prefixes, and one has any.
    fn flow(&self, random: &mut Random) -> Flow<'_> {
        let mut flow = self.addresses.flow(random);
        if flow.prefixes != EMPTY && random.once_in(2) {
            flow.prefixes = picked(random, &self.prefixes);
        }
        if !self.installed.is_empty() && random.once_in(2) {
            flow = self.towards(flow, picked(random, &self.installed));
        }
        let size = random.below(4);
        match random.below(20) {
            0 => Flow { router: &flow.router[..size], ..flow },
            1 => Flow { source: &flow.source[..size], ..flow },
            2 => Flow { group: &flow.group[..size], ..flow },
            _ => flow,
        }
    }

    /// The shared tree of a flow's group, asked of the flow's router; half the time one that an installed NLRI may take.
    fn reception(&self, random: &mut Random) -> Reception<'_> {
        let mut flow = self.flow(random);
        if !self.shared.is_empty() && random.once_in(2) {
            flow = self.towards(flow, picked(random, &self.shared));
        }
        let Flow { prefixes, router, group, .. } = flow;
        Reception {
            prefixes,
            router,
            group,
            facts: any_facts(random),
            source_actives: picked(random, &self.source_actives),
            states: picked(random, &self.states),
        }
    }

    fn towards<'a>(&'a self, flow: Flow<'a>, nlri: &'a [u8]) -> Flow<'a> {
        towards(self.addresses.afi, flow, nlri)
    }
}

/// The flow with the originator and the addresses of a well-formed NLRI; its wildcards leave the flow's own.
pub fn towards<'a>(afi: u16, flow: Flow<'a>, nlri: &'a [u8]) -> Flow<'a> {
    let second = Second::sound();
    let Ok(reading) = second.single(afi, nlri) else { return flow };
    let of = |field, own| Some(reading.octets(field)).filter(|octets| !octets.is_empty()).unwrap_or(own);
    Flow {
        prefixes: flow.prefixes,
        router: reading.octets(Field::Originator),
        source: of(Field::Source, flow.source),
        group: of(Field::Group, flow.group),
    }
}

/// A list of calls on a table just made.
pub struct Sequence<'a> {
    afi: u16,
    places: usize,
    calls: Vec<TableCall<'a>>,
    /// The router that each call belongs to.
    routers: Vec<Option<Router>>,
    premise: bool,
}

/// Each call's answer, in the order of the list, and the table octets at the end.
pub type Outcome = (Vec<TableAnswer>, Vec<u8>);

impl<'a> Sequence<'a> {
    /// At first mostly an install of each NLRI in turn, so that the table fills, then any calls.
    fn new(stock: &'a Stock, random: &mut Random, places: usize, length: usize) -> Self {
        let mut next = stock.installed.iter();
        let mut call = || match (!random.once_in(8)).then(|| next.next()).flatten() {
            Some(nlri) => TableCall::Install { nlri, attribute: picked(random, &stock.attributes) },
            None => stock.call(random),
        };
        let calls = (0..length).map(|_| call()).collect();
        Sequence::of(stock.addresses.afi, places, calls)
    }

    pub fn of(afi: u16, places: usize, calls: Vec<TableCall<'a>>) -> Self {
        let routers: Vec<_> = calls.iter().map(|call| Second::sound().router(afi, call)).collect();
        let installed = calls.iter().zip(&routers).filter_map(|(call, router)| match call {
            TableCall::Install { nlri, .. } if router.is_some() => Some(nlri),
            _ => None,
        });
        let premise = installed.collect::<BTreeSet<_>>().len() <= places;
        Sequence { afi, places, calls, routers, premise }
    }

    fn compare(&self, harness: &mut Harness, random: &mut Random) -> Checked {
        let listed: Vec<usize> = (0..self.calls.len()).collect();
        let (answers, octets) = self.run(harness, random, &listed, None)?;
        if !self.premise {
            return Ok(());
        }
        let orders = if self.places == MOST_PLACES { ORDERS_OF_LARGEST } else { ORDERS };
        for number in 0..orders {
            let order = if number == 0 { self.one_after_another(random) } else { self.interleaved(random) };
            let (_, again) = self.run(harness, random, &order, Some(&answers))?;
            if again != octets {
                let call = format!("{:?} in the order {order:?}", self.calls);
                return disagree(call, encode(&again), encode(&octets));
            }
        }
        Ok(())
    }

    /// Makes a table and the calls in this order. Each call must get the answer it got in an earlier order, at first that
    /// of its book or of the table; after it the table octets are compared.
    pub fn run(
        &self,
        harness: &mut Harness,
        random: &mut Random,
        order: &[usize],
        earlier: Option<&[TableAnswer]>,
    ) -> Result<Outcome, Disagreement> {
        harness.make(self.afi, &random.octets(size(self.places)))?;
        let mut books = Books::new(harness.second, self.afi, self.places);
        let mut table = Table::new(self.afi, self.places);
        let mut answers = BTreeMap::new();
        let mut prefixes = BTreeMap::new();
        for occurrence in order {
            let call = &self.calls[*occurrence];
            let (answer, image) = match self.premise {
                true => (books.answer(call), books.image()),
                false => (harness.second.on_table(&mut table, call), table.image()),
            };
            let answer = earlier.map_or(&answer, |answers| &answers[*occurrence]);
            let marked = is_marked(harness.table(), call);
            let answer = harness.next_call(call, answer, &image)?;
            self.count(harness, *occurrence, &answer);
            self.count_restarts(harness, *occurrence, marked, &answer);
            self.count_prefixes(harness, *occurrence, &mut prefixes);
            answers.insert(*occurrence, answer);
        }
        let made: Vec<Made> = order.iter().map(|occurrence| (&self.calls[*occurrence], &answers[occurrence])).collect();
        let left = harness.second.left_by(self.afi, self.places, &made);
        if left != harness.table() {
            return Err(Disagreement {
                call: format!("what these leave in a table of {} places: {made:?}", self.places),
                archive: encode(harness.table()),
                second: encode(&left),
            });
        }
        Ok((answers.into_values().collect(), harness.table().to_vec()))
    }

    /// Counts what is done to marked routes; `marked` is whether the call's NLRI was.
    fn count_restarts(&self, harness: &mut Harness, occurrence: usize, marked: bool, answer: &TableAnswer) {
        let (afi, premise) = (self.afi, self.premise);
        let seen = match (self.calls[occurrence], answer) {
            (_, TableAnswer::Installed(installed)) if marked => Seen::Renewed(afi, premise, installed.number == 0),
            (_, TableAnswer::Withdrawn(0)) if marked => Seen::StaleWithdrawn(afi, premise),
            (TableCall::Mark { .. }, TableAnswer::Restarted(restarted)) if restarted.number == 0 => {
                Seen::Restarted(afi, premise, true, restarted.gone > 0)
            }
            (_, TableAnswer::Restarted(restarted)) if restarted.number == 0 => {
                Seen::Restarted(afi, premise, false, restarted.gone > 0)
            }
            _ => return,
        };
        harness.coverage.count(Call::Sequence, seen);
    }

    /// Counts a match that has other prefixes than its router's match before, whose prefixes `last` keeps.
    fn count_prefixes(&self, harness: &mut Harness, occurrence: usize, last: &mut BTreeMap<Router, &'a [u8]>) {
        let (Some(router), Some(prefixes)) = (&self.routers[occurrence], prefixes(&self.calls[occurrence])) else {
            return;
        };
        if last.insert(router.clone(), prefixes).is_some_and(|before| before != prefixes) {
            harness.coverage.count(Call::Sequence, Seen::OtherPrefixes(self.afi, self.premise));
        }
    }

    fn count(&self, harness: &mut Harness, occurrence: usize, answer: &TableAnswer) {
        harness.coverage.count(Call::Sequence, Seen::Places(self.afi, self.places, self.premise));
        if self.routers[occurrence].is_none() {
            harness.coverage.count(Call::Sequence, Seen::Nobody);
        }
        match (self.calls[occurrence], answer) {
            (TableCall::MatchShared { .. }, TableAnswer::Matched(matched, _)) if matched.number == 0 => {
                harness.coverage.count(Call::Sequence, Seen::SharedTree(self.afi, matched.tier));
            }
            (TableCall::Install { attribute, .. }, TableAnswer::Installed(installed))
                if installed.number == 0 && !Second::sound().names_tunnel(attribute) =>
            {
                harness.coverage.count(Call::Sequence, Seen::NoTunnel(self.afi));
            }
            _ => {}
        }
    }

    /// All calls of one router, then all of another; calls of nobody before, between or after them.
    fn one_after_another(&self, random: &mut Random) -> Vec<usize> {
        let ranks: BTreeMap<_, _> = self.routers.iter().flatten().map(|router| (router, random.number())).collect();
        let rank = |router: &Option<Router>| router.as_ref().map_or_else(|| random.number(), |router| ranks[router]);
        sorted(self.routers.iter().map(rank).collect())
    }

    /// The routers' calls mixed anew, each router's in its own order; calls of nobody anywhere.
    fn interleaved(&self, random: &mut Random) -> Vec<usize> {
        let mut ranks: Vec<u64> = self.routers.iter().map(|_| random.number()).collect();
        let routers: BTreeSet<_> = self.routers.iter().flatten().collect();
        for router in routers {
            let own = |occurrence: &usize| self.routers[*occurrence].as_ref() == Some(router);
            let calls: Vec<usize> = (0..ranks.len()).filter(own).collect();
            let mut drawn: Vec<u64> = calls.iter().map(|occurrence| ranks[*occurrence]).collect();
            drawn.sort();
            calls.iter().zip(drawn).for_each(|(occurrence, rank)| ranks[*occurrence] = rank);
        }
        sorted(ranks)
    }
}

/// Whether the route that an install or a withdrawal names is held and marked.
fn is_marked(table: &[u8], call: &TableCall) -> bool {
    let (TableCall::Install { nlri, .. } | TableCall::Withdraw { nlri }) = call else { return false };
    let mut places = table[HEADER..].chunks(PLACE);
    places.any(|place| place[PLACE - 1] == 1 && place[2..][..usize::from(place[0])] == **nlri)
}

/// The prefixes of a match of any kind.
fn prefixes<'a>(call: &TableCall<'a>) -> Option<&'a [u8]> {
    match call {
        TableCall::Match { flow, .. } | TableCall::Explain { flow, .. } => Some(flow.prefixes),
        TableCall::MatchShared { reception, .. } => Some(reception.prefixes),
        _ => None,
    }
}

/// The calls by rank, the lowest first; calls of equal rank stay in order.
fn sorted(ranks: Vec<u64>) -> Vec<usize> {
    let mut order: Vec<usize> = (0..ranks.len()).collect();
    order.sort_by_key(|occurrence| ranks[*occurrence]);
    order
}

#[cfg(test)]
mod tests {
    use super::*;

    /// The router's calls in an order.
    fn calls_of(sequence: &Sequence, order: &[usize], router: &Router) -> Vec<usize> {
        let own = |occurrence: &usize| sequence.routers[*occurrence].as_ref() == Some(router);
        order.iter().copied().filter(own).collect()
    }

    #[test]
    fn orders_keep_each_routers_own() {
        let mut random = Random::new(3);
        let stock = Stock::new(&mut random, 1, 16, SELDOM);
        let sequence = Sequence::new(&stock, &mut random, 16, 200);
        let listed: Vec<usize> = (0..200).collect();
        let routers: BTreeSet<Router> = sequence.routers.iter().flatten().cloned().collect();
        assert!(routers.len() > 3 && sequence.routers.contains(&None) && sequence.premise);
        let (one_after_another, interleaved) =
            (sequence.one_after_another(&mut random), sequence.interleaved(&mut random));
        for order in [&one_after_another, &interleaved] {
            assert_eq!(order.iter().copied().collect::<BTreeSet<_>>().len(), 200);
            assert_ne!(*order, listed);
            for router in &routers {
                assert_eq!(calls_of(&sequence, order, router), calls_of(&sequence, &listed, router));
            }
        }
        let mut owners: Vec<_> =
            one_after_another.iter().filter_map(|occurrence| sequence.routers[*occurrence].clone()).collect();
        owners.dedup();
        assert_eq!(owners.len(), routers.len());
    }
}
