//! The plain judge and planner on document 02's examples, W-214, and on drawn wishes against the second decoder.

use crate::{
    cases::{
        inputs::{
            lists::list,
            near,
            routes::{picked, Addresses},
        },
        plan::{
            examples::{items, places, refused_wish, DISTINGUISHER, JUDGED, ORIGINATOR, PLANNED, REFUSED},
            plans::{any_proposal, change, many_flows, wanted_attributes, Case},
        },
    },
    ffi::{raw, Judged, Planned},
    hexadecimal::octets,
    plain,
    random::Random,
    second::{
        plan::wish::{Wish, LONGEST_PROPOSAL},
        table::memory::PLACE,
        Second,
    },
};

/// The arguments of both calls but the AFI and the places.
fn lent(wish: &Wish) -> [raw::Octets; 4] {
    [wish.prefixes, wish.originator, wish.distinguisher, wish.flows].map(raw::octets)
}

fn judged(wish: &Wish, places: &[u8]) -> Judged {
    unsafe { raw::on_wish(plain::judge, wish.afi, lent(wish), raw::octets(places)) }
}

/// A plan, and the output afterwards.
fn planned(wish: &Wish, output: &[u8]) -> (Planned, Vec<u8>) {
    let mut output = output.to_vec();
    let answer = unsafe { raw::on_wish(plain::plan, wish.afi, lent(wish), raw::output(&mut output)) };
    (answer, output)
}

/// Both calls as the second decoder asks.
fn agree(wish: &Wish, places: &[u8], output: &[u8]) {
    let second = Second::sound();
    assert_eq!(judged(wish, places), second.answer_judge(wish, places), "{wish:?} of {places:?}");
    let (planned, after) = planned(wish, output);
    assert_eq!(second.wrong_plan(wish, output, planned, &after), None, "{wish:?}: {planned:?}, {after:?}");
}

#[test]
fn examples() {
    let [originator, distinguisher] = [ORIGINATOR, DISTINGUISHER].map(octets);
    let routes = JUDGED.iter().map(|(_, prefixes, flows, routes, _)| (*prefixes, *flows, *routes));
    for (prefixes, flows, routes) in routes.chain(PLANNED.iter().map(|(_, prefixes, flows, _)| (*prefixes, *flows, "")))
    {
        let (prefixes, flows) = (octets(prefixes), list(&items(flows)));
        let wish =
            Wish { afi: 1, prefixes: &prefixes, originator: &originator, distinguisher: &distinguisher, flows: &flows };
        agree(&wish, &places(routes), &[0x5A; LONGEST_PROPOSAL]);
    }
    for row in &REFUSED {
        let [prefixes, originator, distinguisher, flows] = refused_wish(row);
        let wish = Wish {
            afi: row.1,
            prefixes: &prefixes,
            originator: &originator,
            distinguisher: &distinguisher,
            flows: &flows,
        };
        agree(&wish, &vec![0; row.7], &vec![0x5A; row.6]);
    }
}

#[test]
fn drawn_wishes_as_the_second() {
    let mut random = Random::new(5);
    for afi in [1, 2].into_iter().cycle().take(30_000) {
        let addresses = Addresses::of_family(afi);
        let (mut case, mut places, attributes) = any_proposal(&mut random, &addresses);
        if random.once_in(2) {
            change(&mut random, &mut case, &mut places, &addresses, &attributes);
        }
        let mut flows = list(&case.flows);
        if random.once_in(8) {
            near::disturb(&mut random, &mut flows);
        }
        let room = PLACE * case.flows.len() + random.below(3);
        let output = random.octets(room.saturating_sub(1));
        agree(&case.wish(&flows), &places.concat(), &output);
    }
}

#[test]
fn many_wishes_as_the_second() {
    let mut random = Random::new(6);
    let all = wanted_attributes();
    for (afi, count) in [1, 2].into_iter().flat_map(|afi| [1, 2, 30, 63, 64, 65].map(|count| (afi, count))) {
        let addresses = Addresses::of_family(afi);
        for kinds in [1, 2, 5, 40] {
            let wants = |[source, group]: [Vec<u8>; 2]| {
                [source, group, picked(&mut random, &all[..kinds.min(all.len())]).to_vec()]
            };
            let flows = many_flows(&addresses, count).into_iter().map(wants).collect();
            let case = Case::of(&addresses, flows);
            let places: Vec<u8> =
                case.flows.iter().flat_map(|[source, group, wanted]| case.place(source, group, wanted, 0)).collect();
            agree(&case.wish(&list(&case.flows)), &places, &random.octets(PLACE * count));
        }
    }
}
