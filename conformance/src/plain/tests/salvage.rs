//! The plain salvage on document 02's examples, W-212, and on damaged tables against the second one.

use crate::{
    cases::{
        inputs::{damage::DAMAGES, routes::Addresses},
        table::salvage::{asked_of, memory_of, EXAMPLES, FILL, REFUSALS},
    },
    plain,
    random::Random,
    second::{
        table::{
            memory::{HEADER, PLACE},
            salvage::Salvage,
        },
        Second,
    },
};

fn salvaged(afi: u16, damaged: &[u8], table: &[u8], dropped: &[u8]) -> Salvage {
    let (mut table, mut dropped) = (table.to_vec(), dropped.to_vec());
    let (memory, size) = (table.as_mut_ptr(), table.len());
    let (list, room) = (dropped.as_mut_ptr(), dropped.len());
    let answer = unsafe { plain::salvage(afi, damaged.as_ptr(), damaged.len(), memory, size, list, room) };
    Salvage { answer, table, dropped }
}

#[test]
fn examples() {
    for example in &EXAMPLES {
        let (memory, asked) = (memory_of(example), asked_of(example, 2));
        let [table, dropped] = [&asked.table, &asked.dropped].map(|octets| vec![FILL; octets.len()]);
        assert_eq!(salvaged(example.1, &memory, &table, &dropped), asked, "{}", example.0);
    }
    for (shows, afi, sizes, _) in REFUSALS {
        let [damaged, table, dropped] =
            [(sizes[0], 0), (sizes[1], FILL), (sizes[2], FILL)].map(|(size, it)| vec![it; size]);
        let asked = Second::sound().answer_salvage(afi, &damaged, &table, &dropped);
        assert_eq!(salvaged(afi, &damaged, &table, &dropped), asked, "{shows}");
    }
}

#[test]
fn damaged_tables_as_the_second() {
    let mut random = Random::new(3);
    for (places, afi) in [0, 1, 3, 20, 500].into_iter().flat_map(|places| [(places, 1), (places, 2)]) {
        for _ in 0..if places > 20 { 20 } else { 2_000 } {
            let count = random.below(places + 1);
            let image = Addresses::of_family(afi).table(&mut random, places, count).image();
            let mut list: Vec<&[u8]> = image[HEADER..].chunks(PLACE).collect();
            if random.once_in(2) {
                random.shuffle(&mut list);
            }
            if let (true, Some(last)) = (random.once_in(3), list.last().copied()) {
                list[0] = last;
            }
            let mut memory = [&image[..HEADER], &list.concat()].concat();
            if random.once_in(2) {
                DAMAGES[random.below(DAMAGES.len())](&mut random, &mut memory, count);
            }
            let [table, dropped] = [memory.len(), 3 * places + random.below(3)].map(|size| random.octets(size));
            let asked = Second::sound().answer_salvage(afi, &memory, &table, &dropped);
            assert_eq!(salvaged(afi, &memory, &table, &dropped), asked, "{memory:?}");
        }
    }
}
