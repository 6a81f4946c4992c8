//! What one change of a table disturbs (document 02, W-213): examples with their answers, every choice among a few routes with each change
//! of each, and sequences of changes. The answers of matches of every kind before a change and after it are held against what the second
//! decoder says of the change; and who asks again by docs/PLANNING.md has not missed another answer.

use super::no_tunnel;
use crate::{
    cases::{
        document::in_papers,
        inputs::{
            lists::EMPTY,
            routes::{bad_attributes, good_attributes, s_pmsi, Addresses, NO_TUNNEL},
            samples::GOOD_AFIS,
        },
        shared::matches::UPSTREAM,
        table::{
            memory::OUTPUT,
            restarts::{self, ONE, TWO},
            sequences::Stock,
        },
    },
    compare::{disagree, Checked, Disagreement, Harness},
    coverage::{self, Call, Seen},
    ffi::SharedTree,
    hexadecimal::{encode, octets},
    random::Random,
    second::{
        matches::{choice::Flow, disturbance::Effect, shared::Reception},
        table::{
            calls::{TableAnswer, TableCall},
            memory::{size, Table},
        },
    },
};

/// Calls compared in sequences: one for so many random cases.
const CASES_A_CALL: u64 = 2;

/// Matches whose answers are followed through a sequence, and marks and sweeps in it beside twenty other calls.
const ASKED: usize = 10;
const RESTARTS: usize = 6;

pub fn all(harness: &mut Harness, random: &mut Random, cases: u64) -> Checked {
    examples(harness)?;
    for afi in GOOD_AFIS {
        let addresses = Addresses::of_family(afi);
        [0, 2].into_iter().try_for_each(|group| every_choice(harness, &addresses, &addresses.groups[group]))?;
    }
    let before = harness.calls;
    while harness.calls - before < cases / CASES_A_CALL {
        for (afi, places) in GOOD_AFIS.into_iter().flat_map(|afi| [1, 3, 8, 24].map(|places| (afi, places))) {
            sequence(harness, random, afi, places)?;
        }
    }
    Ok(())
}

// ---- examples

/// A change of the example. Routes are named as in `no_tunnel.rs`; F is another router's, and a stroke is behind those that are marked.
pub enum Step {
    Install(&'static str),
    Refused(&'static str),
    Withdraw(&'static str),
    Mark(&'static str),
    Sweep(&'static str),
}

/// What it shows, the routes held, whether the shared tree (C-*,239.1.1.1) or the flow (192.0.2.1, 232.1.1.1) of 10.0.0.1 is asked, the
/// change, the route answered before and after it, the tier then, what the change does, and whether one asks again.
pub struct Example {
    pub shows: &'static str,
    pub held: &'static str,
    pub tree: bool,
    pub change: Step,
    pub before: &'static str,
    pub after: (u32, &'static str),
    pub effect: Effect,
    pub asks: bool,
}

/// A flow that has A and keeps it, and does not ask again.
const KEPT: Example = Example {
    shows: "another route is withdrawn",
    held: "A B C D E",
    tree: false,
    change: Step::Withdraw("B"),
    before: "A",
    after: (1, "A"),
    effect: Effect::Unfelt,
    asks: false,
};

/// The same of the shared tree, which has C.
const TREE: Example = Example { tree: true, change: Step::Withdraw("D"), before: "C", after: (3, "C"), ..KEPT };

pub const EXAMPLES: [Example; 27] = [
    KEPT,
    Example {
        shows: "the route answered is withdrawn",
        change: Step::Withdraw("A"),
        after: (2, "B"),
        effect: Effect::Withdrawn,
        asks: true,
        ..KEPT
    },
    Example {
        shows: "the only route is withdrawn",
        held: "A",
        change: Step::Withdraw("A"),
        after: (0, ""),
        effect: Effect::Withdrawn,
        asks: true,
        ..KEPT
    },
    Example { shows: "one that is not held is withdrawn", held: "A", effect: Effect::Refused, ..KEPT },
    Example {
        shows: "the same but for its distinguisher is withdrawn",
        held: "A A2",
        change: Step::Withdraw("A2"),
        ..KEPT
    },
    Example {
        shows: "an earlier tier is installed",
        held: "B D",
        change: Step::Install("A"),
        before: "B",
        effect: Effect::Becomes(1),
        asks: true,
        ..KEPT
    },
    Example {
        shows: "the first route is installed",
        held: "",
        change: Step::Install("D"),
        before: "",
        after: (4, "D"),
        effect: Effect::Becomes(4),
        asks: true,
        ..KEPT
    },
    Example { shows: "a later tier is installed", held: "A", change: Step::Install("D"), ..KEPT },
    Example { shows: "a later distinguisher is installed", held: "A", change: Step::Install("A2"), asks: true, ..KEPT },
    Example {
        shows: "an earlier distinguisher is installed",
        held: "A2 B",
        change: Step::Install("A"),
        before: "A2",
        effect: Effect::Becomes(1),
        asks: true,
        ..KEPT
    },
    Example {
        shows: "an earlier tier that names no tunnel is installed",
        held: "B",
        change: Step::Install("a"),
        before: "B",
        after: (2, "B"),
        asks: true,
        ..KEPT
    },
    Example { shows: "another group's route is installed", held: "A", change: Step::Install("E"), ..KEPT },
    Example {
        shows: "a route of the wrong class is installed",
        held: "D",
        change: Step::Install("C"),
        before: "D",
        after: (4, "D"),
        ..KEPT
    },
    Example {
        shows: "another router's route is installed",
        held: "D2",
        change: Step::Install("F"),
        before: "D2",
        after: (4, "D2"),
        ..KEPT
    },
    Example { shows: "the route answered is installed again", change: Step::Install("A"), asks: true, ..KEPT },
    Example {
        shows: "the route answered names no tunnel any more",
        change: Step::Install("a"),
        after: (2, "B"),
        effect: Effect::Unnamed,
        asks: true,
        ..KEPT
    },
    Example {
        shows: "a route names a tunnel again",
        held: "a B",
        change: Step::Install("A"),
        before: "B",
        effect: Effect::Becomes(1),
        asks: true,
        ..KEPT
    },
    Example { shows: "the install is refused", change: Step::Refused("A"), effect: Effect::Refused, ..KEPT },
    Example { shows: "routes are marked", change: Step::Mark(ONE), ..KEPT },
    Example {
        shows: "a marked route goes with a mark",
        held: "A' B",
        change: Step::Mark(ONE),
        after: (2, "B"),
        effect: Effect::Went,
        asks: true,
        ..KEPT
    },
    Example {
        shows: "a marked route is swept",
        held: "A' B",
        change: Step::Sweep(ONE),
        after: (2, "B"),
        effect: Effect::Went,
        asks: true,
        ..KEPT
    },
    Example { shows: "another route is swept", held: "A B'", change: Step::Sweep(ONE), asks: true, ..KEPT },
    Example { shows: "another router is swept", held: "A' F'", change: Step::Sweep(TWO), ..KEPT },
    TREE,
    Example {
        shows: "the route of the group is withdrawn",
        change: Step::Withdraw("C"),
        after: (4, "D"),
        effect: Effect::Withdrawn,
        asks: true,
        ..TREE
    },
    Example {
        shows: "a route of the group is installed",
        held: "D",
        change: Step::Install("C"),
        before: "D",
        effect: Effect::Becomes(3),
        asks: true,
        ..TREE
    },
    Example { shows: "a (C-S,C-G) route is installed", held: "C D", change: Step::Install("A"), ..TREE },
];

/// NLRI and attribute of a route as the examples name it.
fn named(name: &str) -> (Vec<u8>, Vec<u8>) {
    match name.trim_end_matches('\'') {
        other @ "F" => restarts::named(other),
        own => no_tunnel::named(own),
    }
}

impl Example {
    /// The table of seven places that holds the routes.
    pub fn table(&self) -> Table {
        let mut table = Table::new(1, 7);
        for name in self.held.split_whitespace() {
            let (nlri, attribute) = named(name);
            if name.ends_with('\'') {
                table.stale.insert(nlri.clone());
            }
            table.routes.insert(nlri, attribute);
        }
        table
    }

    /// Makes the change.
    pub fn change<Answer>(&self, make: impl FnOnce(&TableCall) -> Answer) -> Answer {
        match self.change {
            Step::Install(name) => {
                let (nlri, attribute) = named(name);
                make(&TableCall::Install { nlri: &nlri, attribute: &attribute })
            }
            Step::Refused(name) => make(&TableCall::Install { nlri: &named(name).0, attribute: &bad_attributes()[8] }),
            Step::Withdraw(name) => make(&TableCall::Withdraw { nlri: &named(name).0 }),
            Step::Mark(router) => make(&TableCall::Mark { router: &octets(router) }),
            Step::Sweep(router) => make(&TableCall::Sweep { router: &octets(router) }),
        }
    }

    /// Asks.
    pub fn ask<Answer>(&self, ask: impl FnOnce(&TableCall) -> Answer) -> Answer {
        match self.tree {
            true => no_tunnel::ask_shared_tree(ask),
            false => no_tunnel::ask_flow("C0000201", "E8010101", ask),
        }
    }
}

fn examples(harness: &mut Harness) -> Checked {
    for example in &EXAMPLES {
        let Example { shows, before, after, effect, asks, .. } = example;
        let papers = |what| format!("document 02, W-213, {shows}, {what}");
        let memory = example.table().image();
        let held = example.ask(|call| harness.table_call(&memory, *call))?;
        in_papers(
            papers("before"),
            held.route().map_or(Vec::new(), |it| it.nlri.to_vec()),
            no_tunnel::named(before).0,
        )?;
        let told = example.ask(|call| {
            let mut asked = [Asked { call: *call, answer: held.clone() }];
            let told = example.change(|change| changed(harness, &memory, *change, &mut asked).map(|(_, told)| told))?;
            let [Asked { answer, .. }] = asked;
            in_papers(papers("after"), answer, no_tunnel::answer(after.0, after.1))?;
            Ok(told)
        })?;
        in_papers(papers("what it does"), told, vec![(*effect, *asks)])?;
    }
    Ok(())
}

// ---- a change, and what is asked before it and after it

/// A match of any kind, and its answer before the change, then after it.
struct Asked<'a> {
    call: TableCall<'a>,
    answer: TableAnswer,
}

/// The memory afterwards; and of each answer what the change does to it, and whether one asks again.
type Told = (Vec<u8>, Vec<(Effect, bool)>);

/// Makes the change on the memory, and asks again.
fn changed(harness: &mut Harness, memory: &[u8], change: TableCall, asked: &mut [Asked]) -> Result<Told, Disagreement> {
    let second = harness.second;
    let before = second.table(memory).expect("a sound table");
    let answer = harness.table_call(memory, change)?;
    let after = harness.table().to_vec();
    let alone = table_alone(harness, before.afi, &change)?;
    let mut told = Vec::new();
    for Asked { call, answer: held } in asked {
        let now = harness.table_call(&after, *call)?;
        let effect = second.effect(&before, &change, answer.number(), call, held.route());
        let shown = || format!("{call:?} before and after {change:?} on {}", encode(memory));
        if !second.agrees_with(effect, &change, call, held, &now) {
            disagree(shown(), format!("{held:?}, then {now:?}"), format!("{effect:?}"))?;
        }
        let tier = match &alone {
            Some(alone) => harness.table_call(alone, second.asked_alone(*call))?.route().map_or(0, |route| route.tier),
            None => 0,
        };
        let asks = second.asks_again(before.afi, &change, &answer, tier, held.route());
        let is_other = now != *held;
        // The table of one place speaks of a withdrawal too, though less exactly than the NLRI answered.
        if is_other && (!asks || alone.is_some() && tier == 0) {
            disagree(shown(), format!("{held:?}, then {now:?}"), format!("nobody asks again; tier {tier} alone"))?;
        }
        count(harness, before.afi, &change, call, (effect, asks, is_other));
        told.push((effect, asks));
        *held = now;
    }
    Ok((after, told))
}

/// A table of one place that holds the NLRI of an install or a withdrawal, with an attribute that names a tunnel.
pub fn table_alone(harness: &mut Harness, afi: u16, change: &TableCall) -> Result<Option<Vec<u8>>, Disagreement> {
    let (TableCall::Install { nlri, .. } | TableCall::Withdraw { nlri }) = *change else { return Ok(None) };
    harness.make(afi, &vec![0xA5; size(1)])?;
    let made = harness.table().to_vec();
    let attribute = harness.second.attribute_alone(change);
    harness.table_call(&made, TableCall::Install { nlri, attribute: &attribute })?;
    Ok(Some(harness.table().to_vec()))
}

fn count(harness: &mut Harness, afi: u16, change: &TableCall, asked: &TableCall, told: (Effect, bool, bool)) {
    let (effect, asks, is_other) = told;
    let change = match change {
        TableCall::Withdraw { .. } => coverage::Change::Withdraw,
        TableCall::Mark { .. } => coverage::Change::Mark,
        TableCall::Sweep { .. } => coverage::Change::Sweep,
        _ => coverage::Change::Install,
    };
    let shared = matches!(asked, TableCall::MatchShared { .. });
    harness.coverage.count(Call::Disturbance, Seen::Effect(afi, shared, change, effect));
    harness.coverage.count(Call::Disturbance, Seen::AskedAgain(afi, change, asks, is_other));
}

// ---- every choice

/// Flows to the group and its shared trees, where each of five routes is not held, names no tunnel or names one: every tier, and two
/// distinguishers of the first. Each is installed with a tunnel, with another, with none and with a bad attribute, and withdrawn; every
/// second one that is held is marked, and its router and another are marked and swept.
fn every_choice(harness: &mut Harness, addresses: &Addresses, group: &[u8]) -> Checked {
    let Addresses { afi, distinguishers, sources, routers, .. } = addresses;
    let (router, source) = (&routers[0], &sources[0]);
    let shapes: [(usize, &[u8], &[u8]); 5] =
        [(1, source, group), (2, source, group), (1, source, &[]), (1, &[], group), (1, &[], &[])];
    let nlris =
        shapes.map(|(distinguisher, source, group)| s_pmsi(&distinguishers[distinguisher], source, group, router));
    let (good, no_tunnel, bad) = (good_attributes(), octets(NO_TUNNEL[1]), &bad_attributes()[8]);
    let calls = asked_of(addresses, group);
    for choice in 0..3_usize.pow(5) {
        let mut table = Table::new(*afi, 5);
        for (at, nlri) in nlris.iter().enumerate() {
            match choice / 3_usize.pow(at as u32) % 3 {
                0 => continue,
                1 => table.routes.insert(nlri.clone(), no_tunnel.clone()),
                _ => table.routes.insert(nlri.clone(), good[1].clone()),
            };
            if at % 2 == choice % 2 {
                table.stale.insert(nlri.clone());
            }
        }
        let memory = table.image();
        let restarts = routers[..2].iter().flat_map(|router| [TableCall::Mark { router }, TableCall::Sweep { router }]);
        let changes = nlris.iter().flat_map(|nlri| {
            let installs =
                [&good[1], &good[2], &no_tunnel, bad].map(|attribute| TableCall::Install { nlri, attribute });
            installs.into_iter().chain([TableCall::Withdraw { nlri }])
        });
        for change in changes.chain(restarts) {
            let mut asked = asked_before(harness, &memory, &calls)?;
            changed(harness, &memory, change, &mut asked)?;
        }
    }
    Ok(())
}

/// A flow to the group and its shared tree, by the standard range and by prefixes that give the group the other class; and the tree where no
/// condition holds.
fn asked_of<'a>(addresses: &'a Addresses, group: &'a [u8]) -> Vec<TableCall<'a>> {
    let (router, source, output) = (&addresses.routers[0], &addresses.sources[0], &OUTPUT);
    let other_class = &addresses.prefixes[if *group == addresses.groups[0] { 4 } else { 3 }];
    let mut calls = Vec::new();
    for prefixes in [EMPTY, other_class] {
        calls.push(TableCall::Match { flow: Flow { prefixes, router, source, group }, output });
        for facts in [UPSTREAM, SharedTree::default()] {
            let reception = Reception { prefixes, router, group, facts, source_actives: EMPTY, states: EMPTY };
            calls.push(TableCall::MatchShared { reception, output });
        }
    }
    calls
}

/// The answers to these calls.
fn asked_before<'a>(
    harness: &mut Harness,
    memory: &[u8],
    calls: &[TableCall<'a>],
) -> Result<Vec<Asked<'a>>, Disagreement> {
    calls.iter().map(|call| Ok(Asked { call: *call, answer: harness.table_call(memory, *call)? })).collect()
}

// ---- sequences

/// Changes of one table, from an empty one on, by several routers and refused ones among them; matches of every kind are followed.
fn sequence(harness: &mut Harness, random: &mut Random, afi: u16, places: usize) -> Checked {
    let installed = places + random.below(places + 2);
    let stock = Stock::new(random, afi, installed, RESTARTS);
    let calls: Vec<TableCall> = (0..ASKED).map(|_| stock.asked(random)).collect();
    let mut memory = Table::new(afi, places).image();
    let mut asked = asked_before(harness, &memory, &calls)?;
    for _ in 0..10 + random.below(50) {
        let change = stock.change(random);
        (memory, _) = changed(harness, &memory, change, &mut asked)?;
        let one = &asked[random.below(ASKED)];
        other_prefixes(harness, &memory, one, stock.prefixes(random))?;
    }
    Ok(())
}

/// The same is asked by other prefixes: it may have another answer only where its group has another class.
fn other_prefixes(harness: &mut Harness, memory: &[u8], asked: &Asked, prefixes: &[u8]) -> Checked {
    let afi = u16::from(memory[5]);
    let other = asked.call.by_prefixes(prefixes);
    let answer = harness.table_call(memory, other)?;
    let Some(class) = harness.second.felt_by_prefixes(afi, &asked.call, &other) else { return Ok(()) };
    let is_other = answer != asked.answer;
    if is_other && !class {
        let call = format!("{:?} and {other:?} on {}", asked.call, encode(memory));
        return disagree(call, format!("{:?}, then {answer:?}", asked.answer), "the class is the same".into());
    }
    harness.coverage.count(Call::Disturbance, Seen::OtherClass(afi, class, is_other));
    Ok(())
}
