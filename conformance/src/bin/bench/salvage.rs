//! Rows of salvage, of the most places: all good and in the order of their NLRIs, as in a sound table; all good and in reverse order; and all
//! bad for the octet before the mark, so that each place is looked at to its end.

use crate::{report::Report, routes::routes, table::table_of};
use conformance::{
    cases::inputs::samples::GOOD_AFIS,
    ffi::{raw, Salvaged},
    plain,
    second::table::{
        memory::{HEADER, MOST_PLACES, PLACE},
        salvage::{BAD, DROPPED_PLACE},
    },
};
use std::hint::black_box;

pub fn rows(report: &mut Report) {
    for afi in GOOD_AFIS {
        let sound = table_of(afi, MOST_PLACES, &routes(afi, MOST_PLACES));
        let (header, places) = sound.split_at(HEADER);
        let reversed = [header, &places.chunks(PLACE).rev().collect::<Vec<_>>().concat()].concat();
        let mut bad = sound.clone();
        bad[HEADER..].chunks_mut(PLACE).for_each(|place| place[PLACE - 2] = 1);
        let all: Vec<u8> =
            (0..MOST_PLACES as u16).flat_map(|number| [(number >> 8) as u8, number as u8, BAD]).collect();
        let name = format!("salvage, afi {afi}, places {MOST_PLACES}");
        row(report, &format!("{name}, in order"), afi, &sound, &sound, &[]);
        row(report, &format!("{name}, in reverse order"), afi, &reversed, &sound, &[]);
        row(report, &format!("{name}, all bad"), afi, &bad, &table_of(afi, MOST_PLACES, []), &all);
    }
}

/// A row of salvages that make this table and this list.
fn row(report: &mut Report, name: &str, afi: u16, damaged: &[u8], table: &[u8], list: &[u8]) {
    let (mut second, mut dropped) = (vec![0x5A; damaged.len()], vec![0x5A; DROPPED_PLACE * MOST_PLACES]);
    let (memory, room) = (second.as_mut_ptr(), dropped.len());
    let rows = dropped.as_mut_ptr();
    let calls = black_box([raw::mvpn_salvage as raw::Salvage, plain::salvage]).map(|call| {
        move || unsafe { call(afi, damaged.as_ptr(), damaged.len(), memory, black_box(damaged.len()), rows, room) }
    });
    report.check_output(&calls, memory, damaged.len(), table, name);
    report.check_output(&calls, rows, room, list, name);
    let told = (list.len() / DROPPED_PLACE) as u32;
    let expected = Salvaged { number: 0, kept: MOST_PLACES as u32 - told, dropped: told };
    report.check(name, &calls.each_ref().map(|call| call()), &expected);
    report.timed(name, calls);
}
