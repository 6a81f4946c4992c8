//! Routes in several tables (document 02, W-213; docs/PLANNING.md), far more of them than one table holds: (C-S,C-G) routes in small
//! tables by a hash of originator, source and group, the others in a table for each originator. Matches of every kind, installs,
//! withdrawals, marks and sweeps on these tables are held against the second decoder's over one list of all routes.

use super::{memory::OUTPUT, sequences::towards};
use crate::{
    cases::{
        inputs::{
            lists::EMPTY,
            routes::{good_attributes, picked, s_pmsi, Addresses},
            samples::GOOD_AFIS,
        },
        matches::disturbance::table_alone,
        shared::matches::UPSTREAM,
    },
    compare::{disagree, Checked, Disagreement, Harness},
    coverage::{Call, Change, Seen},
    ffi::Restarted,
    random::Random,
    second::{
        matches::{choice::Flow, shared::Reception},
        table::{
            calls::{TableAnswer, TableCall},
            memory::{size, Table, HEADER, MOST_PLACES, PLACE},
            splitting::Part,
        },
    },
};
use std::collections::BTreeMap;

/// Installs into the tables, and of the routes of an originator that have a wildcard no more than a table holds.
const INSTALLS: usize = 2_400;
const WILDCARDS: usize = 300;

/// Small tables, and the places that each has at first. A full one is made twice as large.
const SMALL: usize = 64;
const FIRST_PLACES: usize = 4;

/// Matches of each kind after each loss of a session and before the first, and how many there are for each other change.
const MATCHES: usize = 150;
const MATCHES_A_CHANGE: usize = 8;

/// Random cases for each further round.
const CASES_A_ROUND: u64 = 1_000_000;

/// Flows that are followed through each of these.
const FOLLOWED: usize = 3;

/// A router that has no routes.
const NO_ROUTES: [u8; 4] = [10, 0, 0, 9];

/// The number of an install for which there is no place.
const ROOM: u32 = 13;

pub fn all(harness: &mut Harness, random: &mut Random, cases: u64) -> Checked {
    for round in 0..=cases / CASES_A_ROUND {
        for afi in GOOD_AFIS {
            // Copies of wildcards in small tables change no answer: they all stand in the other tables.
            all_routes(harness, random, afi, (round + u64::from(afi)) % 2 == 0)?;
        }
    }
    Ok(())
}

/// The tables, and all routes in one list.
struct Split {
    afi: u16,
    tables: BTreeMap<Part, Vec<u8>>,
    all: Table,
    /// Whether small tables hold copies of wildcards.
    copies: bool,
}

fn all_routes(harness: &mut Harness, random: &mut Random, afi: u16, copies: bool) -> Checked {
    let addresses = many_addresses(random, afi);
    let attributes = good_attributes();
    let mut split = Split { afi, tables: BTreeMap::new(), all: Table::new(afi, usize::MAX), copies };
    for _ in 0..INSTALLS {
        let nlri = drawn(random, &addresses);
        split.install(harness, &nlri, picked(random, &attributes))?;
    }
    if split.all.routes.len() < 3 * MOST_PLACES {
        let held = format!("{} routes", split.all.routes.len());
        return disagree("routes in several tables".into(), held, "far more than a table holds".into());
    }
    split.asks(harness, random, &addresses)?;
    for (router, change) in addresses.routers.iter().zip([Change::Sweep, Change::Mark, Change::Sweep]) {
        split.lose(harness, random, router, change)?;
        split.asks(harness, random, &addresses)?;
    }
    Ok(())
}

/// The usual routers, distinguishers and prefixes, with more sources, and more groups of both classes.
fn many_addresses(random: &mut Random, afi: u16) -> Addresses {
    let mut addresses = Addresses::of_family(afi);
    let numbered = |address: &[u8], number: u8| [&address[..address.len() - 1], &[number]].concat();
    let (source, groups) = (addresses.sources[0].clone(), addresses.groups[..4].to_vec());
    addresses.sources.extend((10..30).map(|number| numbered(&source, number)));
    addresses.groups.truncate(4);
    addresses.groups.extend((10..26).map(|number| numbered(&groups[usize::from(number) % 4], number)));
    random.shuffle(&mut addresses.sources);
    addresses
}

/// The NLRI of a route; of seven one has a wildcard.
fn drawn(random: &mut Random, addresses: &Addresses) -> Vec<u8> {
    if random.once_in(7) {
        return addresses.nlri(random);
    }
    let [distinguisher, source, group, router] =
        [&addresses.distinguishers, &addresses.sources, &addresses.groups, &addresses.routers]
            .map(|it| picked(random, it));
    s_pmsi(distinguisher, source, group, router)
}

impl Split {
    /// The octets of a table, which is made where there is none.
    fn table(&mut self, part: &Part) -> &mut Vec<u8> {
        let places = if let Part::Small(_) = part { FIRST_PLACES } else { WILDCARDS };
        let afi = self.afi;
        self.tables.entry(part.clone()).or_insert_with(|| Table::new(afi, places).image())
    }

    /// A call on one of the tables.
    fn call(&mut self, harness: &mut Harness, part: &Part, call: TableCall) -> Result<TableAnswer, Disagreement> {
        let table = self.table(part);
        let answer = harness.table_call(&table[..], call)?;
        table.copy_from_slice(harness.table());
        Ok(answer)
    }

    /// The call on all routes, which has the answer of several tables.
    fn agree(&mut self, harness: &Harness, call: TableCall, several: TableAnswer) -> Result<TableAnswer, Disagreement> {
        let answer = harness.second.on_table(&mut self.all, &call);
        if several != answer {
            disagree(format!("{call:?} on several tables"), format!("{several:?}"), format!("{answer:?}"))?;
        }
        Ok(answer)
    }

    /// An install. A full table is made larger: its octets, and zeros behind them, are a table.
    fn install(&mut self, harness: &mut Harness, nlri: &[u8], attribute: &[u8]) -> Result<TableAnswer, Disagreement> {
        let call = TableCall::Install { nlri, attribute };
        let part = harness.second.part_of(self.afi, nlri, SMALL).expect("a well-formed NLRI");
        let mut answer = self.call(harness, &part, call)?;
        if answer.number() == ROOM {
            let table = self.table(&part);
            let places = (table.len() - HEADER) / PLACE;
            table.resize(size((2 * places).min(MOST_PLACES)), 0);
            harness.coverage.count(Call::Splitting, Seen::Grown(self.afi));
            answer = self.call(harness, &part, call)?;
        }
        if let (true, Part::Wildcards(_)) = (self.copies, &part) {
            self.copy(harness, call)?;
        }
        self.agree(harness, call, answer)
    }

    /// Installs the route in a small table too, if that has room.
    fn copy(&mut self, harness: &mut Harness, call: TableCall) -> Checked {
        let number = self.all.routes.len() % SMALL;
        self.call(harness, &Part::Small(number), call).map(drop)
    }

    /// Matches, with changes between them.
    fn asks(&mut self, harness: &mut Harness, random: &mut Random, addresses: &Addresses) -> Checked {
        for at in 0..MATCHES {
            if at % MATCHES_A_CHANGE == 0 {
                self.change(harness, random, addresses)?;
            }
            self.matches(harness, random, addresses)?;
        }
        Ok(())
    }

    /// A withdrawal of a route that is held or of any, or an install of either. Flows towards it, and their shared trees, that do not ask
    /// again after it have the answer that they had.
    fn change(&mut self, harness: &mut Harness, random: &mut Random, addresses: &Addresses) -> Checked {
        let nlris: Vec<Vec<u8>> = self.all.routes.keys().cloned().collect();
        let (other, attributes) = (drawn(random, addresses), good_attributes());
        let nlri = if random.once_in(3) { &other } else { picked(random, &nlris) };
        let attribute = picked(random, &attributes);
        let withdraws = random.once_in(2);
        let change = match withdraws {
            true => TableCall::Withdraw { nlri },
            false => TableCall::Install { nlri, attribute },
        };
        let flows: Vec<Flow> = (0..FOLLOWED).map(|_| towards(self.afi, addresses.flow(random), nlri)).collect();
        let calls: Vec<TableCall> = flows.iter().flat_map(asks_of).collect();
        let mut before = Vec::new();
        for call in &calls {
            before.push(self.answer(harness, *call)?);
        }
        let answer = match withdraws {
            true => self.withdraw(harness, nlri)?,
            false => self.install(harness, nlri, attribute)?,
        };
        let alone = table_alone(harness, self.afi, &change)?.expect("a change of an NLRI");
        for (call, held) in calls.into_iter().zip(before) {
            let now = self.answer(harness, call)?;
            let tier = harness.table_call(&alone, call)?.route().map_or(0, |route| route.tier);
            if now != held && !harness.second.asks_again(self.afi, &change, &answer, tier, held.route()) {
                let shown = format!("{call:?} before and after {change:?} on several tables");
                return disagree(shown, format!("{held:?}, then {now:?}"), "nobody asks again".into());
            }
        }
        Ok(())
    }

    /// A router's session is lost, about half of its routes come again, and the others go with a sweep or a second mark.
    fn lose(&mut self, harness: &mut Harness, random: &mut Random, router: &[u8], change: Change) -> Checked {
        self.restart(harness, Change::Mark, router)?;
        for nlri in self.all.stale.clone() {
            if random.once_in(2) {
                self.install(harness, &nlri, picked(random, &good_attributes()))?;
            }
        }
        self.restart(harness, change, router)
    }

    fn withdraw(&mut self, harness: &mut Harness, nlri: &[u8]) -> Result<TableAnswer, Disagreement> {
        let call = TableCall::Withdraw { nlri };
        let part = harness.second.part_of(self.afi, nlri, SMALL).expect("a well-formed NLRI");
        let answer = self.call(harness, &part, call)?;
        self.agree(harness, call, answer)
    }

    /// A mark or a sweep on every table that may hold routes of the router.
    fn restart(&mut self, harness: &mut Harness, change: Change, router: &[u8]) -> Checked {
        let call = match change {
            Change::Mark => TableCall::Mark { router },
            _ => TableCall::Sweep { router },
        };
        let parts: Vec<Part> =
            self.tables.keys().filter(|part| harness.second.restarts(part, router)).cloned().collect();
        let mut all = 0;
        for part in parts {
            let TableAnswer::Restarted(Restarted { gone, .. }) = self.call(harness, &part, call)? else { continue };
            if gone > 0 {
                harness.coverage.count(Call::Splitting, Seen::WentOfTables(self.afi, change));
            }
            all += gone;
        }
        // A copy that goes is told too.
        if self.copies {
            harness.second.on_table(&mut self.all, &call);
            return Ok(());
        }
        self.agree(harness, call, TableAnswer::Restarted(Restarted { number: 0, gone: all })).map(drop)
    }

    /// A match, an explanation and a match for a shared tree, with no prefixes or some.
    fn matches(&mut self, harness: &mut Harness, random: &mut Random, addresses: &Addresses) -> Checked {
        let mut flow = addresses.flow(random);
        if random.once_in(8) {
            flow.router = &NO_ROUTES;
        }
        asks_of(&flow).into_iter().try_for_each(|call| self.answer(harness, call).map(drop))
    }

    /// The tables asked in turn, until the answer is that of all.
    fn answer(&mut self, harness: &mut Harness, call: TableCall) -> Result<TableAnswer, Disagreement> {
        let mut parts = harness.second.parts_asked(&call, SMALL).into_iter();
        let mut asked = 1;
        let first = parts.next().expect("a match is asked of one table at least");
        let mut answer = self.call(harness, &first, call)?;
        for part in parts {
            if harness.second.ends_asking(answer.route()) {
                break;
            }
            (asked, answer) = (asked + 1, self.call(harness, &part, call)?);
        }
        let tier = answer.route().map_or(0, |route| route.tier);
        harness.coverage.count(Call::Splitting, Seen::OfTables(self.afi, tier, asked));
        self.agree(harness, call, answer)
    }
}

/// A match, an explanation and a match for a shared tree.
fn asks_of<'a>(flow: &Flow<'a>) -> [TableCall<'a>; 3] {
    let (flow, output) = (*flow, &OUTPUT);
    let Flow { prefixes, router, group, .. } = flow;
    let reception = Reception { prefixes, router, group, facts: UPSTREAM, source_actives: EMPTY, states: EMPTY };
    [
        TableCall::Match { flow, output },
        TableCall::Explain { flow, output },
        TableCall::MatchShared { reception, output },
    ]
}
