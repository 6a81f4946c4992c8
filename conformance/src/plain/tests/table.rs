//! The plain table calls against document 01: its marked examples, the order of refusals, what makes a table unsound; and
//! mixed calls against the second table.

use super::shared::matched_shared;
use crate::{
    cases::{
        inputs::{
            damage::DAMAGES,
            places::laid_out,
            routes::{bad_attributes, bad_nlris, good_attributes, picked, s_pmsi, Addresses},
        },
        matches::no_tunnel::table_of,
        prefixes::examples::{
            ask_flow, ask_shared_tree, flow_answers, shared_tree_answer, ASKS, FLOWS, HELD, SHARED_TREES,
        },
        shared::matches::any_facts,
    },
    ffi::{raw, Following, Installed, Matched, TableInfo},
    plain,
    random::Random,
    second::{
        groups::prefixes::NO_PREFIXES,
        matches::{choice::Flow, shared::Reception},
        table::calls::{TableAnswer, TableCall},
        Second,
    },
};

const NEW: u32 = 1;
const REPLACED: u32 = 2;

const ROUTER: &[u8] = &[10, 0, 0, 1];
const SOURCE: &[u8] = &[192, 0, 2, 1];
const SSM: &[u8] = &[232, 1, 1, 1];
const ASM: &[u8] = &[239, 1, 1, 1];
const WILDCARD: &[u8] = &[];
/// No tunnel.
const NONE: &[u8] = &[0, 0, 0, 0, 0];
/// Ingress replication.
const REPLICATED: &[u8] = &[0, 6, 0, 0, 0, 10, 0, 0, 1];

/// NLRI and attribute of a match that gives none.
const NO_ROUTE: [Vec<u8>; 2] = [Vec::new(), Vec::new()];

struct Table(Vec<u8>);

impl Table {
    fn made(afi: u16, places: usize) -> Self {
        let mut octets = vec![0xA5; 8 + 128 * places];
        assert_eq!(unsafe { plain::make(afi, octets.as_mut_ptr(), octets.len()) }, 0);
        Table(octets)
    }

    fn answer(&mut self, call: &TableCall) -> TableAnswer {
        let (table, size) = (self.0.as_mut_ptr(), self.0.len());
        match *call {
            TableCall::Install { nlri, attribute } => TableAnswer::Installed(unsafe {
                plain::install(table, size, nlri.as_ptr(), nlri.len(), attribute.as_ptr(), attribute.len())
            }),
            TableCall::Withdraw { nlri } => {
                TableAnswer::Withdrawn(unsafe { plain::withdraw(table, size, nlri.as_ptr(), nlri.len()) })
            }
            TableCall::Mark { router } => {
                TableAnswer::Restarted(unsafe { plain::mark(table, size, router.as_ptr(), router.len()) })
            }
            TableCall::Sweep { router } => {
                TableAnswer::Restarted(unsafe { plain::sweep(table, size, router.as_ptr(), router.len()) })
            }
            TableCall::Match { flow, output } => {
                let mut output = output.to_vec();
                TableAnswer::Matched(on_flow(plain::match_flow, &self.0, flow, &mut output), output)
            }
            TableCall::Explain { flow, output } => {
                let mut output = output.to_vec();
                TableAnswer::Explained(on_flow(plain::explain, &self.0, flow, &mut output), output)
            }
            TableCall::MatchShared { reception, output } => {
                let mut output = output.to_vec();
                TableAnswer::Matched(matched_shared(&self.0, reception, &mut output), output)
            }
        }
    }

    /// What looking into the table gives, and the output of `next` afterwards.
    fn looked_into(&self, nlri: &[u8], output: &[u8]) -> (TableInfo, (Following, Vec<u8>)) {
        let (table, size) = (self.0.as_ptr(), self.0.len());
        let mut output = output.to_vec();
        let (place, room) = (output.as_mut_ptr(), output.len());
        let next = unsafe { plain::next(table, size, nlri.as_ptr(), nlri.len(), place, room) };
        (unsafe { plain::table_info(table, size) }, (next, output))
    }

    fn install(&mut self, nlri: &[u8], attribute: &[u8]) -> (u32, u32) {
        match self.answer(&TableCall::Install { nlri, attribute }) {
            TableAnswer::Installed(Installed { number, outcome }) => (number, outcome),
            other => panic!("install answered {other:?}"),
        }
    }

    fn withdraw(&mut self, nlri: &[u8]) -> u32 {
        match self.answer(&TableCall::Withdraw { nlri }) {
            TableAnswer::Withdrawn(number) => number,
            other => panic!("withdraw answered {other:?}"),
        }
    }

    /// The number and the tier, and the NLRI and attribute that stand in an output of `room` octets.
    fn matched(&self, [router, source, group]: [&[u8]; 3], room: usize) -> (u32, u32, [Vec<u8>; 2]) {
        let mut output = vec![0x5A; room];
        let flow = Flow { prefixes: NO_PREFIXES, router, source, group };
        let Matched { number, tier, nlri_size, attribute_size } =
            on_flow(plain::match_flow, &self.0, flow, &mut output);
        let mut attribute = output.split_off(nlri_size as usize);
        let rest = attribute.split_off(attribute_size as usize);
        assert!(rest.iter().all(|octet| *octet == 0x5A), "written past the route");
        (number, tier, [output, attribute])
    }
}

fn on_flow<Answer>(call: raw::OnFlow<Answer>, table: &[u8], flow: Flow, output: &mut [u8]) -> Answer {
    let Flow { prefixes, router, source, group } = flow;
    let flow = [router, source, group].map(raw::octets);
    unsafe { raw::on_flow(call, raw::octets(table), raw::octets(prefixes), flow, raw::output(output)) }
}

fn nlri(last: u8, source: &[u8], group: &[u8], originator: &[u8]) -> Vec<u8> {
    s_pmsi(&[0, 0, 0, 100, 0, 0, 0, last], source, group, originator)
}

/// A place as document 01 lays it out.
fn place(nlri: &[u8], attribute: &[u8]) -> Vec<u8> {
    laid_out(nlri, attribute, 0)
}

#[test]
fn making_a_table() {
    let number = |afi, size| {
        let mut memory = vec![0xA5; size];
        let number = unsafe { plain::make(afi, memory.as_mut_ptr(), size) };
        assert!(number == 0 || memory == vec![0xA5; size], "a refusal changed the memory");
        number
    };
    let sizes = [(0, 11), (7, 11), (8, 0), (9, 11), (135, 11), (136, 0), (64_008, 0), (64_136, 11)];
    sizes.into_iter().for_each(|(size, expected)| assert_eq!(number(2, size), expected, "{size} octets"));
    [0, 3, 257].into_iter().for_each(|afi| assert_eq!(number(afi, 7), 10, "AFI {afi}"));
    assert_eq!(Table::made(2, 3).0, [&[b'M', b'V', b'T', 0, 1, 2, 0, 0][..], &[0; 384]].concat());
}

#[test]
fn marked_flows() {
    let mut table = Table::made(1, 5);
    let a = nlri(1, SOURCE, SSM, ROUTER);
    let b = nlri(1, SOURCE, WILDCARD, ROUTER);
    let c = nlri(1, WILDCARD, ASM, ROUTER);
    let d = nlri(1, WILDCARD, WILDCARD, ROUTER);
    let e = nlri(1, WILDCARD, &[232, 9, 9, 9], ROUTER);
    [&a, &b, &c, &d, &e].into_iter().for_each(|nlri| assert_eq!(table.install(nlri, REPLICATED), (0, NEW)));
    let route = |nlri: &[u8]| [nlri.to_vec(), REPLICATED.to_vec()];
    let asked = |router, source, group| table.matched([router, source, group], 130);
    assert_eq!(asked(ROUTER, SOURCE, SSM), (0, 1, route(&a)), "P1");
    assert_eq!(asked(ROUTER, SOURCE, &[232, 1, 1, 2]), (0, 2, route(&b)), "P2");
    assert_eq!(asked(ROUTER, SOURCE, ASM), (0, 3, route(&c)), "P3");
    assert_eq!(asked(ROUTER, &[192, 0, 2, 2], SSM), (0, 4, route(&d)), "P4");
    assert_eq!(asked(ROUTER, &[192, 0, 2, 2], &[232, 9, 9, 9]), (0, 4, route(&d)), "P5");
    assert_eq!(asked(&[10, 0, 0, 2], SOURCE, SSM), (0, 0, NO_ROUTE), "P6");
}

#[test]
fn the_lowest_distinguisher_of_the_router_asked() {
    let mut table = Table::made(1, 5);
    let wide = [[0; 12].as_slice(), ROUTER].concat();
    let routes = [(9, ROUTER), (3, ROUTER), (1, &wide), (2, &[10, 0, 0, 2]), (7, ROUTER)];
    for (last, originator) in routes {
        assert_eq!(table.install(&nlri(last, SOURCE, SSM, originator), REPLICATED), (0, NEW));
    }
    let route = |last| [nlri(last, SOURCE, SSM, ROUTER), REPLICATED.to_vec()];
    assert_eq!(table.matched([ROUTER, SOURCE, SSM], 124), (0, 1, route(3)));
    assert_eq!(table.install(&nlri(3, SOURCE, SSM, ROUTER), NONE), (0, REPLACED));
    assert_eq!(table.matched([ROUTER, SOURCE, SSM], 124), (0, 1, route(7)), "W-202");
}

/// Routes of the size that is looked for, with octets that fit if an address is taken for another field.
#[test]
fn routes_that_only_look_alike() {
    let mut table = Table::made(1, 3);
    let [wide, other] = [[0; 12], [1; 12]].map(|front| [&front, ROUTER].concat());
    assert_eq!(table.install(&nlri(1, WILDCARD, WILDCARD, &wide), NONE), (0, NEW));
    assert_eq!(table.install(&nlri(1, WILDCARD, &[232, 1, 1, 0], ROUTER), NONE), (0, NEW));
    assert_eq!(table.install(&nlri(1, &[32, 239, 1, 1], WILDCARD, ROUTER), NONE), (0, NEW));
    assert_eq!(table.matched([&other, SOURCE, SSM], 124), (0, 0, NO_ROUTE));
    assert_eq!(table.matched([ROUTER, &[32, 232, 1, 1], SSM], 124), (0, 0, NO_ROUTE));
    assert_eq!(table.matched([ROUTER, SOURCE, &[239, 1, 1, 0]], 124), (0, 0, NO_ROUTE));
}

#[test]
fn refusals_of_match_in_their_order() {
    let table = Table::made(1, 2);
    let wide: &[u8] = &[0xFF; 16];
    for flow in [
        [&[10, 0, 0][..], SOURCE, SSM],
        [ROUTER, wide, SSM],
        [ROUTER, WILDCARD, SSM],
        [ROUTER, SOURCE, wide],
        [ROUTER, SOURCE, &[223, 255, 255, 255]],
        [ROUTER, SOURCE, &[240, 0, 0, 0]],
    ] {
        assert_eq!(table.matched(flow, 0), (15, 0, NO_ROUTE), "{flow:?}");
    }
    assert_eq!(table.matched([ROUTER, SOURCE, SSM], 123), (16, 0, NO_ROUTE));
    assert_eq!(table.matched([wide, SOURCE, SSM], 124), (0, 0, NO_ROUTE));
    assert_eq!(Table(vec![0; 8]).matched([&[], &[], &[]], 0), (11, 0, NO_ROUTE));
}

#[test]
fn refusals_of_install_and_withdraw_in_their_order() {
    let held = nlri(1, SOURCE, SSM, ROUTER);
    let mut table = Table::made(1, 1);
    assert_eq!(table.install(&held, &[9, 0, 0, 0, 0]), (0, NEW));
    let before = table.0.clone();
    let other = nlri(2, SOURCE, SSM, ROUTER);
    let intra: &[u8] = &[1, 12, 0, 0, 0, 100, 0, 0, 0, 7, 10, 0, 0, 1];
    let long = [0; 65];
    let bier = |low| [0, 11, 0, 0, low, 1, 0, 2, 10, 0, 0, 1];
    for (number, nlri, attribute) in [
        (1, &[][..], &long[..]),
        (2, &[9, 0], &long),
        (3, &[&held[..], &[0]].concat(), &long),
        (4, &[3, 9, 0, 0, 0, 100, 0, 0, 0, 7, 24], &long),
        (5, &[4, 0], &long),
        (3, &[intra, &[0]].concat(), &long),
        (12, intra, &long),
        (8, &held, &long),
        (1, &held, &[0, 11, 0, 0]),
        (6, &held, &[0, 8, 0, 0, 0]),
        (7, &held, &[0, 0, 0, 0, 0, 0]),
        (9, &other, &bier(0x0F)),
        (13, &other, NONE),
    ] {
        assert_eq!(table.install(nlri, attribute), (number, 0), "{nlri:?}, {attribute:?}");
        if nlri != held {
            let number = if nlri == other { 14 } else { number };
            assert_eq!(table.withdraw(nlri), number, "{nlri:?}");
        }
    }
    assert_eq!(table.0, before);
    assert_eq!(table.install(&held, &bier(0x10)), (0, REPLACED), "P12");
    assert_eq!(Table(vec![0; 8]).install(&[], &[]), (11, 0));
    assert_eq!(Table(vec![0; 8]).withdraw(&[]), 11);
}

/// Document 02, W-209.
#[test]
fn matches_by_prefixes() {
    for row in &FLOWS {
        for (asks, asked) in ASKS.into_iter().zip(flow_answers(row)) {
            let answer = ask_flow(row, asks, |call| Table(table_of(row.1)).answer(call));
            assert_eq!(answer, asked, "{}", row.0);
        }
    }
    for row in &SHARED_TREES {
        let answer = ask_shared_tree(row, |call| Table(table_of(HELD)).answer(call));
        assert_eq!(answer, shared_tree_answer(row), "{}", row.0);
    }
}

#[test]
fn unsound_memory() {
    let sound = sound_table();
    assert_eq!(Table(sound.clone()).install(&nlri(1, SOURCE, SSM, ROUTER), NONE), (0, REPLACED));
    // The header up to the count; the second place's sizes and NLRI header, the zeros behind its route; the free place.
    let changes = (0..7).chain(136..140).chain(136 + 31..264).chain(264..392).map(|at| {
        let mut changed = sound.clone();
        changed[at] ^= 0x40;
        changed
    });
    for memory in changes.chain(unsound_tables()) {
        let mut table = Table(memory.clone());
        assert_eq!(table.install(&nlri(2, SOURCE, SSM, ROUTER), NONE), (11, 0), "{memory:?}");
        assert_eq!(table.withdraw(&nlri(2, SOURCE, SSM, ROUTER)), 11, "{memory:?}");
        assert_eq!(table.matched([ROUTER, SOURCE, SSM], 124), (11, 0, NO_ROUTE), "{memory:?}");
        assert_eq!(table.0, memory);
    }
}

/// Two routes and a free place.
fn sound_table() -> Vec<u8> {
    let [low, high] = [1, 2].map(|last| place(&nlri(last, SOURCE, SSM, ROUTER), NONE));
    [&[b'M', b'V', b'T', 0, 1, 1, 0, 2][..], &low, &high, &[0; 128]].concat()
}

/// Each breaks one rule of soundness.
fn unsound_tables() -> Vec<Vec<u8>> {
    let [low, high] = [nlri(1, SOURCE, SSM, ROUTER), nlri(2, SOURCE, SSM, ROUTER)];
    let wide = nlri(1, &[9; 16], &[9; 16], &[9; 16]);
    let intra = [1, 12, 0, 0, 0, 100, 0, 0, 0, 7, 10, 0, 0, 1];
    let bier = [0, 11, 0, 0, 15, 1, 0, 2, 10, 0, 0, 1];
    let held = |count, places: &[Vec<u8>]| [&[b'M', b'V', b'T', 0, 1, 1, 0, count], &places.concat()[..]].concat();
    vec![
        vec![b'M', b'V', b'T', 0, 1, 1, 0],
        held(0, &[vec![0; 127]]),
        held(0, &vec![vec![0; 128]; 501]),
        held(1, &[]),
        held(1, &[vec![0; 128]]),
        held(1, &[vec![255; 128]]),
        held(1, &[place(&low, &bier)]),
        held(1, &[place(&low, &[0, 0, 0, 0])]),
        held(1, &[place(&low[..23], NONE)]),
        held(1, &[place(&[&low[..], &[0]].concat(), NONE)]),
        held(1, &[place(&wide, NONE)]),
        held(1, &[place(&intra, NONE)]),
        held(2, &[place(&low, NONE), place(&low, NONE)]),
        held(2, &[place(&high, NONE), place(&low, NONE)]),
    ]
}

/// Each call on the table as the last one left it, and on a damaged copy.
#[test]
fn mixed_calls_as_the_second_table() {
    let (second, mut random) = (Second::sound(), Random::new(3));
    for (places, afi) in [0, 1, 3, 20].into_iter().flat_map(|places| [(places, 1), (places, 2)]) {
        let stock = Stock::new(&mut random, afi);
        let mut table = Table::made(afi, places);
        for _ in 0..3_000 {
            let call = stock.call(&mut random);
            let mut damaged = Table(table.0.clone());
            let count = u16::from_be_bytes([damaged.0[6], damaged.0[7]]);
            DAMAGES[random.below(DAMAGES.len())](&mut random, &mut damaged.0, usize::from(count));
            for table in [&mut damaged, &mut table] {
                let (asked, output) = (picked(&mut random, &stock.nlris), &[0x5A; 130][random.below(9)..]);
                let looked_into = (second.answer_table_info(&table.0), second.answer_next(&table.0, asked, output));
                assert_eq!(table.looked_into(asked, output), looked_into);
                let (answer, after) = second.on_memory(&table.0, &call);
                assert_eq!(table.answer(&call), answer, "{call:?}");
                assert_eq!(table.0, after, "{call:?}");
            }
        }
    }
}

/// What the calls draw from: few NLRIs, so that they meet.
struct Stock {
    addresses: Addresses,
    nlris: Vec<Vec<u8>>,
    attributes: Vec<Vec<u8>>,
    prefixes: Vec<Vec<u8>>,
    source_actives: Vec<Vec<u8>>,
    states: Vec<Vec<u8>>,
}

impl Stock {
    fn new(random: &mut Random, afi: u16) -> Self {
        let addresses = Addresses::of_family(afi);
        let nlris = [addresses.nlris(random, 24), bad_nlris(afi)].concat();
        Stock {
            nlris,
            attributes: [good_attributes(), bad_attributes()].concat(),
            prefixes: (0..40).map(|_| addresses.any_prefixes(random)).collect(),
            source_actives: (0..20).map(|_| addresses.source_actives(random)).collect(),
            states: (0..20).map(|_| addresses.states(random)).collect(),
            addresses,
        }
    }

    fn call(&self, random: &mut Random) -> TableCall<'_> {
        let nlri = picked(random, &self.nlris);
        let (mut flow, output) = (self.addresses.flow(random), &[0x5A; 130][random.below(9)..]);
        if random.once_in(2) {
            flow.prefixes = picked(random, &self.prefixes);
        }
        match random.below(7) {
            0 => TableCall::Install { nlri, attribute: picked(random, &self.attributes) },
            1 => TableCall::Withdraw { nlri },
            2 => TableCall::Match { flow, output },
            3 => TableCall::Explain { flow, output },
            4 => TableCall::Mark { router: self.router(random, flow) },
            5 => TableCall::Sweep { router: self.router(random, flow) },
            _ => TableCall::MatchShared { reception: self.reception(random, flow), output },
        }
    }

    /// The flow's router; now and then of another size.
    fn router<'a>(&'a self, random: &mut Random, flow: Flow<'a>) -> &'a [u8] {
        match random.below(10) {
            0 => &flow.router[..random.below(4)],
            _ => flow.router,
        }
    }

    fn reception<'a>(&'a self, random: &mut Random, flow: Flow<'a>) -> Reception<'a> {
        Reception {
            prefixes: flow.prefixes,
            router: flow.router,
            group: flow.group,
            facts: any_facts(random),
            source_actives: picked(random, &self.source_actives),
            states: picked(random, &self.states),
        }
    }
}
