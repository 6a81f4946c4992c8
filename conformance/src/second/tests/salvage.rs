//! Salvage on examples with the answers written from document 02, W-212, and beside the table.

use crate::{
    cases::{
        document::table_image,
        inputs::{routes::Addresses, samples::GOOD_AFIS},
        table::salvage::{asked_of, memory_of, EXAMPLES, FILL, REFUSALS},
    },
    ffi::Salvaged,
    random::Random,
    second::{
        table::{
            memory::{size, PLACE},
            salvage::{places_of, Salvage, DROPPED_PLACE},
        },
        Second,
    },
};

/// A salvage with buffers that are just large enough.
fn salvaged(afi: u16, memory: &[u8]) -> Salvage {
    let room = DROPPED_PLACE * (memory.len() / PLACE);
    Second::sound().answer_salvage(afi, memory, &vec![FILL; memory.len()], &vec![FILL; room])
}

#[test]
fn examples() {
    for example in &EXAMPLES {
        assert_eq!(salvaged(example.1, &memory_of(example)), asked_of(example, 0), "{}", example.0);
    }
}

#[test]
fn refusals() {
    for (shows, afi, sizes, number) in REFUSALS {
        let [damaged, table, dropped] =
            [(sizes[0], 0), (sizes[1], FILL), (sizes[2], FILL)].map(|(size, it)| vec![it; size]);
        let Salvage { answer, table: after, dropped: list } =
            Second::sound().answer_salvage(afi, &damaged, &table, &dropped);
        assert_eq!(answer, Salvaged { number, ..Default::default() }, "{shows}");
        assert_eq!(list, dropped, "{shows}");
        assert!(number == 0 || after == table, "{shows}");
    }
}

/// Document 01's table, whole and without its header; with the last place, which is free, before all others; and with a place cut out.
#[test]
fn document_table() {
    let image = table_image();
    let done = |kept, dropped| Salvaged { number: 0, kept, dropped };
    assert_eq!(salvaged(1, &image), Salvage { answer: done(5, 0), table: image.clone(), dropped: vec![FILL; 18] });
    for memory in [
        [&[0; 8], &image[8..]].concat(),
        [&image[..8], &[0; PLACE], &image[8..size(5)]].concat(),
        [&image[..8], &image[size(2)..], &image[8..size(2)]].concat(),
    ] {
        assert_eq!(salvaged(1, &memory).table, image);
        assert_eq!(salvaged(1, &memory).answer, done(5, 0));
    }
    // Of A to E only D, which is both wildcards, has no address of the family.
    let Salvage { answer, table, dropped } = salvaged(2, &image);
    assert_eq!((answer, &dropped[..12]), (done(1, 4), &[0, 1, 1, 0, 2, 1, 0, 3, 1, 0, 4, 1][..]));
    assert_eq!(table[..8], *b"MVT\x00\x01\x02\x00\x01");
    assert_eq!(table[8..size(1)], image[8..size(1)]);
}

/// Numbers over 255, and the highest.
#[test]
fn numbers() {
    let mut memory = vec![0; size(500)];
    for number in [255, 256, 499] {
        memory[size(number)] = 1;
    }
    let Salvage { answer, dropped, .. } = salvaged(2, &memory);
    assert_eq!(answer, Salvaged { number: 0, kept: 0, dropped: 3 });
    assert_eq!(dropped[..10], [0, 255, 1, 1, 0, 1, 1, 0xF3, 1, FILL]);
}

/// Places of sound tables in any order, with others among them: the table holds them in order, and comes back as it is.
#[test]
fn shuffled() {
    let mut random = Random::new(212);
    for (afi, places) in GOOD_AFIS.into_iter().flat_map(|afi| [1, 2, 5, 30].map(|places| (afi, places))) {
        let table = Addresses::of_family(afi).table(&mut random, places, places / 2 + 1);
        let image = table.image();
        let mut list: Vec<&[u8]> = places_of(&image).into_values().collect();
        random.shuffle(&mut list);
        let memory = [random.octets(8), list.concat()].concat();
        let Salvage { answer, table: after, .. } = salvaged(afi, &memory);
        assert_eq!((answer.kept as usize, answer.dropped), (table.routes.len(), 0));
        assert_eq!(after, image);
        assert_eq!(Second::sound().table(&after), Ok(table));
    }
}
