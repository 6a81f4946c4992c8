//! The table and the books on document 01's examples, on octets laid out by hand, and beside each other.

use crate::{
    cases::{
        document::{route, table_image, FLOWS, LABELS, ORDER, RD},
        inputs::{
            damage::DAMAGES,
            routes::{bad_attributes, good_attributes, picked, Addresses},
            samples::GOOD_AFIS,
        },
        matches::{disturbance, explanations::EXAMPLES, no_tunnel},
        shared::matches::any_facts,
        table::restarts,
    },
    ffi::{Following, Installed, Matched, TableInfo},
    hexadecimal::octets,
    random::Random,
    second::{
        groups::prefixes::NO_PREFIXES,
        matches::{choice::Flow, disturbance::Effect, shared::Reception},
        number::Number,
        table::{
            books::Books,
            calls::{TableAnswer, TableCall},
            memory::Table,
        },
        Second,
    },
};

fn installed(number: u32, outcome: u32) -> TableAnswer {
    TableAnswer::Installed(Installed { number, outcome })
}

/// The table of P1 to P6.
fn document_table() -> Table {
    let mut table = Table::new(1, 6);
    table.routes.extend(ORDER.map(route));
    table
}

#[test]
fn document_examples() {
    let second = Second::sound();
    let mut table = document_table();
    assert_eq!(table.image(), table_image());
    assert_eq!(second.table(&table_image()), Ok(table.clone()));
    for (shows, router, source, group, tier, name) in FLOWS {
        let [router, source, group] = [router, source, group].map(octets);
        let (nlri, attribute) = route(name);
        let flow = Flow { prefixes: NO_PREFIXES, router: &router, source: &source, group: &group };
        let asked = Matched { number: 0, tier, nlri_size: nlri.len() as u32, attribute_size: attribute.len() as u32 };
        let mut output = [nlri, attribute].concat();
        output.resize(124, 7);
        let answer = second.on_table(&mut table, &TableCall::Match { flow, output: &[7; 124] });
        assert_eq!(answer, TableAnswer::Matched(asked, output), "{shows}");
    }
    for (shows, attribute, number, outcome) in LABELS {
        let nlri = octets(&"030E RD 00 00 0A000002".replace("RD", RD));
        let call = TableCall::Install { nlri: &nlri, attribute: &octets(attribute) };
        assert_eq!(second.on_table(&mut table, &call), installed(number, outcome), "{shows}");
    }
}

/// Document 01, "The table memory": what sound means, one rule after the other.
#[test]
fn sound_memory() {
    let second = Second::sound();
    assert_eq!(second.table(b"MVT\x00\x01\x02\x00\x00"), Ok(Table::new(2, 0)));
    let bad_headers: [&[u8]; 7] = [
        b"MVT\x00\x01\x02\x00",
        b"MVT\x00\x01\x02\x00\x00\x00",
        b"MVT\x00\x01\x02\x00\x01",
        b"MVT\x00\x01\x03\x00\x00",
        b"MVT\x00\x02\x02\x00\x00",
        b"MVT\x01\x01\x02\x00\x00",
        b"MVS\x00\x01\x02\x00\x00",
    ];
    for memory in bad_headers {
        assert_eq!(second.table(memory), Err(Number::Table), "{memory:?}");
    }
    // An octet behind the last place taken, one behind an attribute, and the first place repeated or moved.
    let changes: [fn(&mut [u8]); 5] = [
        |memory| memory[8 + 5 * 128] = 1,
        |memory| memory[8 + 126] = 1,
        |memory| memory.copy_within(8..8 + 128, 8 + 128),
        |memory| memory[8..8 + 256].rotate_left(128),
        |memory| memory[7] = 4,
    ];
    for (number, change) in changes.into_iter().enumerate() {
        let mut memory = table_image();
        change(&mut memory);
        assert_eq!(second.table(&memory), Err(Number::Table), "change {number}");
    }
}

/// Sound memory is the image of what is read from it.
#[test]
fn one_image() {
    let mut random = Random::new(1);
    let (mut sound, mut unsound) = (0, 0);
    for afi in GOOD_AFIS {
        let addresses = Addresses::of_family(afi);
        for round in 0..20 {
            let table = addresses.table(&mut random, 4, round % 5);
            assert_eq!(Second::sound().table(&table.image()), Ok(table.clone()));
            for damage in DAMAGES {
                let mut memory = table.image();
                damage(&mut random, &mut memory, round % 5);
                match Second::sound().table(&memory) {
                    Ok(read) => {
                        assert_eq!(read.image(), memory);
                        sound += 1;
                    }
                    Err(number) => {
                        assert_eq!(number, Number::Table);
                        unsound += 1;
                    }
                }
            }
        }
    }
    assert!(sound > 100 && unsound > 500, "{sound} sound, {unsound} unsound");
}

#[test]
fn making() {
    let second = Second::sound();
    assert_eq!(second.make(2, 8 + 128), Ok([&b"MVT\x00\x01\x02\x00\x00"[..], &[0; 128]].concat()));
    assert_eq!(second.make(3, 9), Err(Number::Family));
    assert_eq!(second.make(1, 9), Err(Number::Table));
    assert_eq!(second.make(1, 8 + 501 * 128), Err(Number::Table));
}

/// A full table refuses a new NLRI, takes a replacement, and has room again after a withdrawal.
#[test]
fn room_is_used_again() {
    let second = Second::sound();
    let mut table = Table::new(1, 2);
    let [a, b, c] = ["A", "B", "C"].map(route);
    let install = |nlri, attribute| TableCall::Install { nlri, attribute };
    let steps = [
        (install(&a.0, &a.1), installed(0, 1)),
        (install(&b.0, &b.1), installed(0, 1)),
        (install(&c.0, &c.1), installed(13, 0)),
        (install(&a.0, &c.1), installed(0, 2)),
        (TableCall::Withdraw { nlri: &c.0 }, TableAnswer::Withdrawn(14)),
        (TableCall::Withdraw { nlri: &b.0 }, TableAnswer::Withdrawn(0)),
        (install(&c.0, &c.1), installed(0, 1)),
    ];
    for (number, (call, answer)) in steps.iter().enumerate() {
        assert_eq!(second.on_table(&mut table, call), *answer, "step {number}");
    }
    assert_eq!(table.routes, [(a.0, c.1.clone()), c].into_iter().collect());
}

/// With room for every NLRI that installs name, the books together answer as the table does.
#[test]
fn books_and_table() {
    let mut random = Random::new(2);
    let second = Second::sound();
    let attributes: Vec<_> = good_attributes().into_iter().chain(bad_attributes()).collect();
    for (afi, _) in GOOD_AFIS.into_iter().flat_map(|afi| (0..20).map(move |round| (afi, round))) {
        let addresses = Addresses::of_family(afi);
        let nlris = addresses.nlris(&mut random, 12);
        let mut table = Table::new(afi, 12);
        let mut books = Books::new(second, afi, 12);
        for _ in 0..100 {
            let (nlri, flow) = (picked(&mut random, &nlris), addresses.flow(&mut random));
            let [source_actives, states] = [addresses.source_actives(&mut random), addresses.states(&mut random)];
            let (facts, source_actives, states) = (any_facts(&mut random), &source_actives[..], &states[..]);
            let Flow { prefixes, router, group, .. } = flow;
            let reception = Reception { prefixes, router, group, facts, source_actives, states };
            let call = match random.below(7) {
                0 => TableCall::Install { nlri, attribute: picked(&mut random, &attributes) },
                1 => TableCall::Withdraw { nlri },
                2 => TableCall::Match { flow, output: &[9; 124] },
                3 => TableCall::Explain { flow, output: &[9; 124] },
                4 => TableCall::Mark { router: flow.router },
                5 => TableCall::Sweep { router: flow.router },
                _ => TableCall::MatchShared { reception, output: &[9; 124] },
            };
            assert_eq!(books.answer(&call), second.on_table(&mut table, &call), "{call:?}");
            assert_eq!(books.image(), table.image());
        }
    }
}

/// A call belongs to its NLRI's originator or to the router asked about; a call without one belongs to nobody.
#[test]
fn routers_of_calls() {
    let second = Second::sound();
    let (nlri, attribute) = route("A");
    let router = |call| second.router(1, &call);
    assert_eq!(router(TableCall::Install { nlri: &nlri, attribute: &[] }), Some(vec![10, 0, 0, 1]));
    assert_eq!(router(TableCall::Withdraw { nlri: &nlri }), Some(vec![10, 0, 0, 1]));
    assert_eq!(router(TableCall::Withdraw { nlri: &nlri[..23] }), None);
    assert_eq!(
        router(TableCall::Install { nlri: &[1, 12, 0, 0, 0, 0, 0, 0, 0, 0, 10, 0, 0, 1], attribute: &attribute }),
        None
    );
    let asked = |router| {
        let flow = Flow { prefixes: &[], router, source: &[], group: &[] };
        TableCall::Match { flow, output: &[] }
    };
    assert_eq!(router(asked(&[10, 0, 0, 2])), Some(vec![10, 0, 0, 2]));
    assert_eq!(router(asked(&[10, 0, 0, 2, 0])), None);
}

/// Document 02, W-202: a route that names no tunnel is passed over, is held, and is withdrawn.
#[test]
fn no_tunnel() {
    let second = Second::sound();
    for (shows, held, source, group, tier, name) in no_tunnel::FLOWS {
        let mut table = second.table(&no_tunnel::table_of(held)).expect("a sound table");
        let got = no_tunnel::ask_flow(source, group, |call| second.on_table(&mut table, call));
        assert_eq!(got, no_tunnel::answer(tier, name), "{shows}");
    }
    for (shows, held, tier, name) in no_tunnel::SHARED_TREES {
        let mut table = second.table(&no_tunnel::table_of(held)).expect("a sound table");
        let got = no_tunnel::ask_shared_tree(|call| second.on_table(&mut table, call));
        assert_eq!(got, no_tunnel::answer(tier, name), "{shows}");
    }
    let (nlri, _) = route("A");
    let mut table = Table::new(1, 1);
    let install = TableCall::Install { nlri: &nlri, attribute: &[1, 0, 0, 0, 0] };
    assert_eq!([0; 2].map(|_| second.on_table(&mut table, &install)), [installed(0, 1), installed(0, 2)]);
    assert_eq!(second.on_table(&mut table, &TableCall::Withdraw { nlri: &nlri }), TableAnswer::Withdrawn(0));
}

/// Document 02, W-204.
#[test]
fn reasons() {
    let second = Second::sound();
    for example in &EXAMPLES {
        let mut table = second.table(&no_tunnel::table_of(example.held)).expect("a sound table");
        let answer = example.ask(|call| second.on_table(&mut table, call));
        assert_eq!(Some(answer), example.asked(), "{}", example.shows);
    }
}

/// The routes of the document's table come one after the other in the order of their NLRIs.
#[test]
fn following() {
    let (second, image) = (Second::sound(), table_image());
    let mut last = Vec::new();
    for name in ORDER {
        let (nlri, attribute) = route(name);
        let (following, output) = second.answer_next(&image, &last, &[7; 124]);
        let [nlri_size, attribute_size] = [&nlri, &attribute].map(|octets| octets.len() as u32);
        assert_eq!(following, Following { number: 0, nlri_size, attribute_size, stale: 0 }, "{name}");
        assert!(output.starts_with(&[&nlri[..], &attribute].concat()) && output.ends_with(&[7]), "{name}");
        // What stands between two NLRIs is followed by the second.
        assert_eq!(second.answer_next(&image, &[&last[..], &[0]].concat(), &[7; 124]).0, following, "{name}");
        last = nlri;
    }
    assert_eq!(second.answer_next(&image, &last, &[7; 124]), (Following::default(), vec![7; 124]));
    let refused = |number| Following { number, ..Default::default() };
    assert_eq!(second.answer_next(&image, &last, &[7; 123]).0, refused(16));
    assert_eq!(second.answer_next(&image[1..], &[], &[]).0, refused(11));
    assert_eq!(second.answer_table_info(&image), TableInfo { number: 0, afi: 1, places: 6, routes: 5 });
    assert_eq!(second.answer_table_info(&image[1..]), TableInfo { number: 11, ..Default::default() });
}

/// Document 02, W-208, on a table, on memory, in the books and by the calls alone.
#[test]
fn restarts() {
    let second = Second::sound();
    let (mut table, mut memory, mut books) = (Table::new(1, 4), restarts::table_of(""), Books::new(second, 1, 4));
    for (shows, step, number, told, held) in &restarts::EXAMPLE {
        let asked = step.answer(*number, *told);
        assert_eq!(step.ask(|call| second.on_table(&mut table, call)), asked, "{shows}");
        let (answer, after) = step.ask(|call| second.on_memory(&memory, call));
        assert_eq!((answer, &after), (asked.clone(), &restarts::table_of(held)), "{shows}");
        assert_eq!(table.image(), after, "{shows}");
        memory = after;
        // A book has no places: it knows no ROOM.
        if *number != 13 {
            assert_eq!(step.ask(|call| books.answer(call)), asked, "{shows}");
            assert_eq!(books.image(), memory, "{shows}");
        }
    }
}

/// Document 02, W-208: the last octet of a taken place is 0 or 1, and that of a free one 0.
#[test]
fn marks() {
    let second = Second::sound();
    for (value, at) in (0..=255).flat_map(|value| [126, 127, 4 * 128 + 126, 5 * 128 + 127].map(|at| (value, at))) {
        let mut memory = table_image();
        memory[8 + at] = value;
        match (value, at) {
            (0, _) => assert_eq!(second.table(&memory), Ok(document_table())),
            (1, 127) => {
                let mut marked = document_table();
                marked.stale.insert(route("D").0);
                assert_eq!(second.table(&memory), Ok(marked));
                assert_eq!(second.answer_next(&memory, &[], &[7; 124]).0.stale, 1);
            }
            _ => assert_eq!(second.table(&memory), Err(Number::Table), "{value} at {at}"),
        }
    }
}

/// Document 02, W-213: what a change does to an answer, and who asks again.
#[test]
fn disturbance() {
    let second = Second::sound();
    for example in &disturbance::EXAMPLES {
        let (before, mut table) = (example.table(), example.table());
        let held = example.ask(|call| second.on_table(&mut table, call));
        let number = example.change(|change| second.on_table(&mut table, change)).number();
        let now = example.ask(|call| second.on_table(&mut table, call));
        assert_eq!(now, no_tunnel::answer(example.after.0, example.after.1), "{}", example.shows);
        example.ask(|call| {
            example.change(|change| {
                let effect = second.effect(&before, change, number, call, held.route());
                assert_eq!(effect, example.effect, "{}", example.shows);
                assert!(second.agrees_with(effect, change, call, &held, &now), "{}", example.shows);
                let unchanged = matches!(effect, Effect::Refused | Effect::Unfelt);
                assert_eq!(now == held, unchanged, "{}", example.shows);
            })
        });
    }
}
