//! The plain match for shared trees: on the written examples, and as the second decoder answers.

use crate::{
    cases::{
        document::table_image,
        inputs::routes::Addresses,
        shared::{examples::EXAMPLES, matches::any_facts},
    },
    ffi::{raw, Matched},
    plain,
    random::Random,
    second::{
        matches::shared::Reception,
        table::calls::{TableAnswer, TableCall},
        Second,
    },
};

const CASES: usize = 40_000;

pub fn matched_shared(table: &[u8], reception: Reception, output: &mut [u8]) -> Matched {
    let Reception { prefixes, router, group, facts, source_actives, states } = reception;
    let ([table, prefixes], tree) = ([table, prefixes].map(raw::octets), [router, group].map(raw::octets));
    let lists = [source_actives, states].map(raw::octets);
    unsafe { raw::on_tree(plain::match_shared, table, prefixes, tree, facts, lists, raw::output(output)) }
}

fn answer(table: &[u8], call: &TableCall) -> TableAnswer {
    let TableCall::MatchShared { reception, output } = *call else { panic!("{call:?}") };
    let mut output = output.to_vec();
    TableAnswer::Matched(matched_shared(table, reception, &mut output), output)
}

#[test]
fn written_examples() {
    let table = table_image();
    for example in &EXAMPLES {
        assert_eq!(example.ask(|call| answer(&table, call)), example.asked(), "{}", example.shows);
    }
}

#[test]
fn any_lists_as_the_second_decoder() {
    let (second, mut random) = (Second::sound(), Random::new(4));
    for (round, afi) in (0..CASES).map(|round| (round, 1 + (round % 2) as u16)) {
        let addresses = Addresses::of_family(afi);
        let table = addresses.table(&mut random, 12, round % 12).image();
        let [source_actives, states] = [addresses.source_actives(&mut random), addresses.states(&mut random)];
        let (flow, facts) = (addresses.flow(&mut random), any_facts(&mut random));
        let (prefixes, source_actives, states) = (flow.prefixes, &source_actives[..], &states[..]);
        let reception = Reception { prefixes, router: flow.router, group: flow.group, facts, source_actives, states };
        let output = &[0x5A; 130][random.below(9)..];
        let call = TableCall::MatchShared { reception, output };
        assert_eq!(answer(&table, &call), second.on_memory(&table, &call).0, "{call:?}");
    }
}
