//! Looking into a table: the first route and each one's next, from no octets to the last, after every short octet string and
//! those about the NLRIs held, while routes come and go; refusals; and what the table holds.

use super::memory::OUTPUT;
use crate::{
    cases::{
        document::{in_papers, route, table_image, ORDER},
        inputs::{
            damage::DAMAGES,
            routes::{bad_nlris, good_attributes, picked, Addresses},
            samples::GOOD_AFIS,
        },
    },
    compare::{disagree, Checked, Disagreement, Harness, Input},
    coverage::PLACES,
    ffi::{Following, TableInfo},
    random::Random,
    second::{
        matches::choice::LEAST_OUTPUT,
        table::{
            calls::TableCall,
            memory::{size, Table, MOST_PLACES},
        },
    },
};

pub fn all(harness: &mut Harness, random: &mut Random) -> Checked {
    examples(harness)?;
    for afi in GOOD_AFIS {
        let addresses = Addresses::of_family(afi);
        outputs(harness, random, &addresses)?;
        unsound(harness, random, &addresses)?;
        for places in PLACES {
            for count in [0, 1, places / 2, places].into_iter().filter(|count| *count <= places) {
                whole(harness, &addresses.table(random, places, count))?;
            }
        }
        about_held(harness, random, &addresses)?;
        come_and_go(harness, random, &addresses)?;
        short(harness, random, &addresses)?;
    }
    Ok(())
}

/// A to E in the order of their NLRIs, and none after A; the table has six places.
fn examples(harness: &mut Harness) -> Checked {
    let image = table_image();
    let asked = TableInfo { number: 0, afi: 1, places: 6, routes: 5 };
    in_papers("the document's table".into(), harness.table_info(&image)?, asked)?;
    let mut last = Vec::new();
    for name in ORDER.into_iter().chain([""]) {
        let (nlri, attribute) = route(name);
        let [nlri_size, attribute_size] = [&nlri, &attribute].map(|octets| octets.len() as u32);
        let mut output = [&nlri[..], &attribute].concat();
        output.resize(OUTPUT.len(), OUTPUT[0]);
        let answer = harness.next(&image, &last, &OUTPUT)?;
        in_papers(
            format!("{name} comes next"),
            answer,
            (Following { number: 0, nlri_size, attribute_size, stale: 0 }, output),
        )?;
        last = nlri;
    }
    Ok(())
}

/// An NLRI, its attribute, and its mark.
pub type Listed = (Vec<u8>, Vec<u8>, u32);

/// The routes that come one after the other, from no octets on.
pub fn listed(harness: &mut Harness, memory: &[u8]) -> Result<Vec<Listed>, Disagreement> {
    let mut routes: Vec<Listed> = Vec::new();
    loop {
        let last = routes.last().map_or(&[][..], |(nlri, _, _)| nlri);
        let (Following { nlri_size, attribute_size, stale, .. }, mut output) = harness.next(memory, last, &OUTPUT)?;
        // More routes than there are places never end.
        if nlri_size == 0 || routes.len() > MOST_PLACES {
            return Ok(routes);
        }
        let mut attribute = output.split_off(nlri_size as usize);
        attribute.truncate(attribute_size as usize);
        routes.push((output, attribute, stale));
    }
}

/// A table listed to its end: each of its routes once, in order, with its mark.
fn whole(harness: &mut Harness, table: &Table) -> Checked {
    let memory = table.image();
    let routes = listed(harness, &memory)?;
    let mark = |nlri| u32::from(table.stale.contains(nlri));
    let held = table.routes.iter().map(|(nlri, attribute)| (nlri.clone(), attribute.clone(), mark(nlri)));
    let held: Vec<Listed> = held.collect();
    if routes != held {
        return disagree("a table listed to its end".into(), format!("{routes:?}"), format!("{held:?}"));
    }
    let [places, count] = [table.places, held.len()].map(|it| it as u32);
    let asked = TableInfo { number: 0, afi: table.afi.into(), places, routes: count };
    in_papers("what a table holds".into(), harness.table_info(&memory)?, asked)
}

/// Every output size about the least, where a route follows and where none does.
fn outputs(harness: &mut Harness, random: &mut Random, addresses: &Addresses) -> Checked {
    let table = addresses.table(random, 3, 2);
    let (memory, last) = (table.image(), table.routes.keys().next_back().cloned().unwrap_or_default());
    let mut bad = memory.clone();
    bad[4] = 2;
    for room in (0..=LEAST_OUTPUT + 10).chain([200, 256 + 60, 65_536]) {
        let output = random.octets(room);
        for (memory, nlri) in [(&memory, &[][..]), (&memory, &last), (&bad, &[]), (&bad, &last)] {
            harness.next(memory, nlri, &output)?;
        }
    }
    Ok(())
}

/// Each thing that can be wrong with a table, and small tables with every octet another.
fn unsound(harness: &mut Harness, random: &mut Random, addresses: &Addresses) -> Checked {
    for (places, count) in [(0, 0), (1, 0), (1, 1), (2, 1), (3, 3), (16, 9), (MOST_PLACES, 40)] {
        let table = addresses.table(random, places, count);
        for damage in DAMAGES {
            let mut memory = table.image();
            damage(random, &mut memory, count);
            harness.table_info(&memory)?;
            harness.next(&memory, &[], &OUTPUT)?;
        }
    }
    let table = addresses.table(random, 3, 2).image();
    for (place, difference) in (0..table.len()).flat_map(|place| [1, 0x10, 0x80].map(|difference| (place, difference)))
    {
        let mut memory = table.clone();
        memory[place] ^= difference;
        harness.table_info(&memory)?;
        harness.next(&memory, &[], &OUTPUT)?;
    }
    for octets in 0..=table.len() {
        harness.table_info(Input::cut(&table, octets))?;
        harness.next(Input::cut(&table, octets), &[], &OUTPUT)?;
    }
    for octets in [size(MOST_PLACES), size(MOST_PLACES) + 1, size(MOST_PLACES + 1), size(512)] {
        let mut memory = Table::new(addresses.afi, MOST_PLACES).image();
        memory.resize(octets, 0);
        harness.table_info(&memory)?;
    }
    Ok(())
}

/// Every octet string of no, one and two octets.
fn short(harness: &mut Harness, random: &mut Random, addresses: &Addresses) -> Checked {
    let memory = addresses.table(random, 4, 4).image();
    harness.next(&memory, &[], &OUTPUT)?;
    (0..=255).try_for_each(|octet| harness.next(&memory, &[octet][..], &OUTPUT).map(drop))?;
    let pairs = (0..=u16::MAX).map(u16::to_be_bytes);
    pairs.into_iter().try_for_each(|octets| harness.next(&memory, &octets[..], &OUTPUT).map(drop))
}

/// The front of each NLRI held, of every size; with every octet behind it; with an octet one more or one less; with octets after
/// the whole; and octets that are no NLRI of this family.
fn about_held(harness: &mut Harness, random: &mut Random, addresses: &Addresses) -> Checked {
    let table = addresses.table(random, 8, 6);
    let memory = table.image();
    for nlri in table.routes.keys() {
        for end in 0..=nlri.len() {
            harness.next(&memory, Input::cut(nlri, end), &OUTPUT)?;
            for octet in [0, 1, 3, 0x0E, 0x20, 0x7F, 0x80, 0xFF] {
                harness.next(&memory, &[&nlri[..end], &[octet]].concat(), &OUTPUT)?;
            }
        }
        for (place, difference) in
            (0..nlri.len()).flat_map(|place| [1, 0xFF, 0x80].map(|difference| (place, difference)))
        {
            let mut other = nlri.clone();
            other[place] = other[place].wrapping_add(difference);
            harness.next(&memory, &other, &OUTPUT)?;
        }
        for extra in [1, 2, 128, 256, 65_536] {
            harness.next(&memory, &[&nlri[..], &vec![0; extra]].concat(), &OUTPUT)?;
        }
    }
    for nlri in bad_nlris(addresses.afi) {
        harness.next(&memory, &nlri, &OUTPUT)?;
    }
    for _ in 0..500 {
        let nlri = addresses.nlri(random);
        harness.next(&memory, &nlri, &OUTPUT)?;
    }
    Ok(())
}

/// A table listed while routes come and go: those that stay are given once.
fn come_and_go(harness: &mut Harness, random: &mut Random, addresses: &Addresses) -> Checked {
    let attributes = good_attributes();
    for _ in 0..20 {
        let mut memory = addresses.table(random, 40, 20).image();
        let stay: Vec<Vec<u8>> = listed(harness, &memory)?.into_iter().map(|(nlri, _, _)| nlri).step_by(2).collect();
        let mut given: Vec<Vec<u8>> = Vec::new();
        loop {
            let last = given.last().cloned().unwrap_or_default();
            let (Following { nlri_size, .. }, output) = harness.next(&memory, &last, &OUTPUT)?;
            if nlri_size == 0 || given.len() > 1_000 {
                break;
            }
            given.push(output[..nlri_size as usize].to_vec());
            let nlri = addresses.nlri(random);
            let call = match stay.contains(&nlri) || random.once_in(2) {
                true => TableCall::Install { nlri: &nlri, attribute: picked(random, &attributes) },
                false => TableCall::Withdraw { nlri: &nlri },
            };
            harness.table_call(&memory, call)?;
            memory = harness.table().to_vec();
        }
        let times = |nlri: &Vec<u8>| given.iter().filter(|it| *it == nlri).count();
        if !stay.iter().all(|nlri| times(nlri) == 1) || !given.is_sorted() {
            return disagree(
                "listing while routes come and go".into(),
                format!("{given:?}"),
                format!("{stay:?} once each"),
            );
        }
    }
    Ok(())
}
