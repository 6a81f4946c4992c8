//! Plans on examples with the answers written from document 02, W-214, beside the table, and what is said of what a planner proposes.

use crate::{
    cases::{
        inputs::{
            lists::list,
            routes::{picked, s_pmsi, Addresses},
            samples::GOOD_AFIS,
        },
        plan::{
            examples::{items, places, refused_wish, DISTINGUISHER, JUDGED, ORIGINATOR, PLANNED, REFUSED},
            plans::{wanted_attributes, Case},
        },
    },
    ffi::{Judged, Planned},
    hexadecimal::octets,
    random::Random,
    second::{
        matches::choice::{Flow, LEAST_OUTPUT},
        plan::wish::{Wish, LONGEST_PROPOSAL},
        table::{
            calls::TableCall,
            memory::{Table, PLACE},
        },
        Second,
    },
};

/// Something asked of a wish of the examples.
fn asked<Answer>(prefixes: &str, flows: &str, ask: impl FnOnce(&Wish) -> Answer) -> Answer {
    let [prefixes, originator, distinguisher] = [prefixes, ORIGINATOR, DISTINGUISHER].map(octets);
    let flows = list(&items(flows));
    ask(&Wish { afi: 1, prefixes: &prefixes, originator: &originator, distinguisher: &distinguisher, flows: &flows })
}

#[test]
fn judged() {
    for (shows, prefixes, flows, routes, accepted) in JUDGED {
        let answer = asked(prefixes, flows, |wish| Second::sound().answer_judge(wish, &places(routes)));
        assert_eq!(answer, Judged { number: 0, accepted: accepted.into() }, "{shows}");
    }
}

#[test]
fn refused() {
    for row in &REFUSED {
        let [prefixes, originator, distinguisher, flows] = refused_wish(row);
        let (shows, afi, _, _, _, _, room, proposed, numbers) = *row;
        let wish =
            Wish { afi, prefixes: &prefixes, originator: &originator, distinguisher: &distinguisher, flows: &flows };
        let second = Second::sound();
        let planner = second.plan_refusal(&wish, room).map_or(0, |number| number.value());
        assert_eq!([planner, second.answer_judge(&wish, &vec![0; proposed]).number], numbers, "{shows}");
    }
}

#[test]
fn most_routes() {
    for (shows, prefixes, flows, most) in PLANNED {
        assert_eq!(asked(prefixes, flows, |wish| Second::sound().most_routes(wish)), most as usize, "{shows}");
    }
}

/// What a planner leaves: whether something is wrong with it.
fn is_wrong(flows: &str, planned: Planned, routes: &str, past: u8) -> bool {
    let before = vec![0x5A; LONGEST_PROPOSAL];
    let mut after = places(routes);
    after.resize(LONGEST_PROPOSAL, past);
    asked("0000", flows, |wish| Second::sound().wrong_plan(wish, &before, planned, &after)).is_some()
}

#[test]
fn proposals() {
    let done = |routes| Planned { number: 0, routes };
    assert!(!is_wrong("", done(0), "", 0x5A));
    assert!(!is_wrong("aS1 bU2", done(2), "**1 bU2", 0x5A), "of a tie either attribute");
    assert!(!is_wrong("aS1 bU2", done(2), "**2 aS1", 0x5A));
    assert!(!is_wrong("aS1 bU2", done(2), "bU2 **1", 0x5A), "any order");
    assert!(!is_wrong("aS1 aT1 bU2 bV2", done(2), "a*1 **2", 0x5A), "fewer than may be");
    assert!(is_wrong("", done(1), "**1", 0x5A), "no route for no flows");
    assert!(is_wrong("aS1 bU1", done(2), "aS1 bU1", 0x5A), "too many");
    assert!(is_wrong("aS1 bU2", done(1), "**1", 0x5A), "a flow is not served");
    assert!(is_wrong("aS1", done(1), "**1'", 0x5A), "a mark");
    assert!(is_wrong("aS1", done(1), "**1", 0), "octets past the places");
    assert!(is_wrong("aS1", done(1), "**1 .", 0x5A), "a place past those told");
    assert!(is_wrong("aS1", done(1), "**1@", 0x5A), "another originator");
    assert!(is_wrong("aS1", Planned { number: 16, routes: 0 }, "", 0x5A), "a refusal");
    assert!(!is_wrong("aS1 aS2", Planned { number: 20, routes: 0 }, "", 0x5A));
    assert!(is_wrong("aS1 aS2", Planned { number: 20, routes: 1 }, "", 0x5A), "a refusal that tells a route");
    assert!(is_wrong("aS1 aS2", Planned { number: 20, routes: 0 }, "**1", 0x5A), "a refusal that writes");
    assert!(is_wrong("aS1 aS2", done(1), "**1", 0x5A), "no refusal");
}

/// Proposals of different NLRIs are accepted exactly when each flow's match in a table of these routes has what is wanted.
#[test]
fn as_matches_in_a_table() {
    let mut random = Random::new(7);
    let attributes = &wanted_attributes()[..2];
    let mut accepted = 0;
    for afi in GOOD_AFIS.into_iter().cycle().take(20_000) {
        let addresses = Addresses::of_family(afi);
        let mut case = Case::of(&addresses, Vec::new());
        case.prefixes = addresses.flow(&mut random).prefixes.to_vec();
        let mut table = Table::new(afi, 4);
        for _ in 0..random.below(5) {
            let [source, group] = [&addresses.sources[..2], &addresses.groups[..4]].map(|them| {
                if random.once_in(2) {
                    Vec::new()
                } else {
                    picked(&mut random, them).to_vec()
                }
            });
            let nlri = s_pmsi(&case.distinguisher, &source, &group, &case.originator);
            table.routes.insert(nlri, picked(&mut random, attributes).to_vec());
        }
        for _ in 0..1 + random.below(2) {
            let [source, group] =
                [&addresses.sources[..2], &addresses.groups[..4]].map(|them| picked(&mut random, them).to_vec());
            let wanted = case.flows.first().map_or(picked(&mut random, attributes).to_vec(), |flow| flow[2].clone());
            case.flows.push([source, group, wanted]);
        }
        let image = table.image();
        let served = case.flows.iter().all(|[source, group, wanted]| {
            let flow = Flow { prefixes: &case.prefixes, router: &case.originator, source, group };
            let (answer, _) = Second::sound().on_memory(&image, &TableCall::Match { flow, output: &[0; LEAST_OUTPUT] });
            let (matched, output) = answer.matched().expect("a match");
            matched.tier != 0 && output[matched.nlri_size as usize..].starts_with(wanted)
        });
        let proposal = &image[8..][..PLACE * table.routes.len()];
        let judged = Second::sound().answer_judge(&case.wish(&list(&case.flows)), proposal);
        assert_eq!(judged, Judged { number: 0, accepted: served.into() }, "{:?} of {table:?}", case.flows);
        accepted += judged.accepted;
    }
    assert!(accepted > 1_000, "{accepted} are accepted");
}
