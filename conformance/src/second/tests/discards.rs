//! What is discarded, on document 02's words, W-210.

use crate::{
    cases::{
        discards::examples::{encoding, install_and_withdraw, nlri, INSTALLED, LISTINGS, NLRIS, SHARED_TREES, WRITTEN},
        inputs::samples::{discarded, GOOD_AFIS},
        matches::no_tunnel::table_of,
        prefixes::examples::{ask_shared_tree, shared_tree_answer, HELD},
    },
    ffi::{NlriReading, Stepped},
    hexadecimal::octets,
    second::{number::Number, table::calls::TableAnswer, Second},
};

#[test]
fn written_examples() {
    let second = Second::sound();
    for (shows, afi, text, number) in NLRIS {
        let reading = second.answer_nlri_read(afi, &nlri(text));
        assert_eq!(reading.number, number, "{shows}");
        if number != 0 {
            assert_eq!(reading, NlriReading { number, ..Default::default() }, "{shows}");
        }
    }
    for (shows, arguments, run, text) in LISTINGS {
        assert_eq!(second.listing(arguments, &octets(run)), text, "{shows}");
    }
    for row in WRITTEN {
        let (nlri, written) = encoding(&second, row);
        assert_eq!(written.as_ref().err().map_or(0, |number| number.value()), row.6, "{}", row.0);
        if let Ok(octets) = written {
            let read = second.answer_nlri_read(row.1, &octets);
            assert_eq!((read.number, read.nlri.route_type), (0, nlri.route_type), "{}", row.0);
        }
    }
}

#[test]
fn written_examples_of_tables() {
    let second = Second::sound();
    let table = second.table(&table_of(HELD)).expect("a sound table");
    for row in INSTALLED {
        let [install, withdraw] = install_and_withdraw(row, |call| second.on_table(&mut table.clone(), call));
        let TableAnswer::Installed(installed) = install else { panic!("{install:?}") };
        assert_eq!((installed.number, withdraw), (row.3, TableAnswer::Withdrawn(row.4)), "{}", row.0);
    }
    for row in &SHARED_TREES {
        let answer = ask_shared_tree(row, |call| second.on_table(&mut table.clone(), call));
        assert_eq!(answer, shared_tree_answer(row), "{}", row.0);
    }
}

/// The sample is no NLRI that is read: the bare step stays at it, and writing its fields back gives GROUP in any room.
#[test]
fn sample() {
    let second = Second::sound();
    for sample in GOOD_AFIS.map(discarded) {
        let stepped = Stepped { cursor: 0, number: 19, ..Default::default() };
        assert_eq!(second.answer_step(sample.afi, &sample.octets, 0), stepped);
        for room in [0, sample.octets.len() - 1, sample.octets.len()] {
            assert_eq!(second.nlri_write(sample.afi, &sample.nlri, &[], &[], room), Err(Number::Group));
        }
    }
}
