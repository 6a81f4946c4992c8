//! Matching, and explaining a match: wildcards of each tier, ties, routers, flows that are refused, and every output size.

use crate::{
    cases::{
        inputs::{
            lists::EMPTY,
            routes::{good_attributes, picked, s_pmsi, Addresses},
            samples::GOOD_AFIS,
        },
        table::memory::OUTPUT,
    },
    compare::{Checked, Harness},
    random::Random,
    second::{
        matches::choice::{Flow, LEAST_OUTPUT},
        table::{
            calls::TableCall,
            memory::{Routes, Table},
        },
    },
};

/// The call that is made of a flow and an output.
pub type Asks = for<'a> fn(Flow<'a>, &'a [u8]) -> TableCall<'a>;

pub fn all(harness: &mut Harness, random: &mut Random, asks: Asks) -> Checked {
    for afi in GOOD_AFIS {
        let addresses = Addresses::of_family(afi);
        tiers(harness, random, &addresses, asks)?;
        outputs(harness, random, &addresses, asks)?;
        sizes(harness, random, &addresses, asks)?;
        groups(harness, random, &addresses, asks)?;
        refusals(harness, random, &addresses, asks)?;
        for count in [1, 4, 16, 60, 200] {
            every_flow(harness, random, &addresses, asks, count)?;
        }
    }
    Ok(())
}

/// Every choice among the four tiers' routes, each with two distinguishers, for SSM and ASM groups.
fn tiers(harness: &mut Harness, random: &mut Random, addresses: &Addresses, asks: Asks) -> Checked {
    let attributes = good_attributes();
    let (source, wildcard) = (&addresses.sources[0], Vec::new());
    for (group, chosen) in addresses.groups[..4].iter().flat_map(|group| (0..256).map(move |chosen| (group, chosen))) {
        let shapes = [(source, group), (source, &wildcard), (&wildcard, group), (&wildcard, &wildcard)];
        let mut routes = Routes::new();
        for (bit, (source, group)) in shapes.into_iter().chain(shapes).enumerate() {
            if chosen >> bit & 1 == 1 {
                let distinguisher = picked(random, &addresses.distinguishers);
                let nlri = s_pmsi(distinguisher, source, group, &addresses.routers[0]);
                routes.insert(nlri, picked(random, &attributes).to_vec());
            }
        }
        let memory = Table::holding(addresses.afi, 8, routes).image();
        for (router, source) in [(0, 0), (0, 1), (1, 0), (2, 0), (3, 0)] {
            let (router, source) = (&addresses.routers[router], &addresses.sources[source]);
            let flow = Flow { prefixes: EMPTY, router, source, group };
            harness.table_call(&memory, asks(flow, &OUTPUT))?;
        }
    }
    Ok(())
}

/// Every output size up to and past the least, for the longest answer, a short one and none.
fn outputs(harness: &mut Harness, random: &mut Random, addresses: &Addresses, asks: Asks) -> Checked {
    let (source, group) = (&addresses.sources[0], &addresses.groups[0]);
    let attributes = good_attributes();
    let mut routes = Routes::new();
    for (router, source, group, size) in [(4, &source[..], &group[..], 64), (0, &[], &[], 9)] {
        let nlri = s_pmsi(&addresses.distinguishers[0], source, group, &addresses.routers[router]);
        let attribute = attributes.iter().find(|attribute| attribute.len() == size).expect("an attribute of that size");
        routes.insert(nlri, attribute.clone());
    }
    let memory = Table::holding(addresses.afi, 2, routes).image();
    for room in (0..=LEAST_OUTPUT + 10).chain([200, 256 + 60, 65_536]) {
        let output = random.octets(room);
        for router in [4, 0, 1] {
            let flow = Flow { prefixes: EMPTY, router: &addresses.routers[router], source, group };
            harness.table_call(&memory, asks(flow, &output))?;
        }
    }
    Ok(())
}

/// Routers, sources and groups of every size up to 40 and of sizes that are 4 or 16 in their low bits.
fn sizes(harness: &mut Harness, random: &mut Random, addresses: &Addresses, asks: Asks) -> Checked {
    let table = addresses.table(random, 40, 40);
    let memory = table.image();
    let whole = |octets: &[u8]| [octets, &[0; 65_556]].concat();
    for size in (0..=40).chain([256, 260, 272, 65_540, 65_552]) {
        let Flow { prefixes, router, source, group } = addresses.flow(random);
        for changed in 0..3 {
            let mut fields = [router, source, group].map(<[u8]>::to_vec);
            let mut sized = whole(&fields[changed]);
            let after = sized.split_off(size);
            fields[changed] = sized;
            let [router, source, group] = &fields;
            let flow = Flow { prefixes, router, source, group };
            harness.table_call_before(&memory, asks(flow, &OUTPUT), &after[..after.len().min(16)])?;
        }
    }
    Ok(())
}

/// Flows to any group: every first octet, and second octets about the SSM range.
fn groups(harness: &mut Harness, random: &mut Random, addresses: &Addresses, asks: Asks) -> Checked {
    let any = s_pmsi(&addresses.distinguishers[0], &[], &[], &addresses.routers[0]);
    let source = s_pmsi(&addresses.distinguishers[0], &addresses.sources[0], &[], &addresses.routers[0]);
    let attributes = good_attributes();
    let routes = [any, source].into_iter().zip(attributes).collect();
    let memory = Table::holding(addresses.afi, 3, routes).image();
    let (router, source) = (&addresses.routers[0], &addresses.sources[0]);
    for (first, second) in (0..=255).flat_map(|first| [0, 0x2F, 0x30, 0x3F, 0x40, 0xFF].map(|second| (first, second))) {
        let mut group = random.octets(addresses.groups[0].len());
        group[..4].copy_from_slice(&[first, second, 0, random.pick(&[0, 0, 1])]);
        harness.table_call(&memory, asks(Flow { prefixes: EMPTY, router, source, group: &group }, &OUTPUT))?;
    }
    Ok(())
}

/// Every pair of a sound or unsound table, a good or bad flow, and a large or small output: the order of refusals.
fn refusals(harness: &mut Harness, random: &mut Random, addresses: &Addresses, asks: Asks) -> Checked {
    let table = addresses.table(random, 16, 12);
    let mut unsound = table.image();
    unsound[7] += 1;
    let (router, source, group) = (&addresses.routers[0], &addresses.sources[0], &addresses.groups[0]);
    let good = Flow { prefixes: EMPTY, router, source, group };
    let flows = [
        good,
        Flow { router: &[10, 0, 0], ..good },
        Flow { source: &addresses.sources[0][1..], ..good },
        Flow { source: &[], ..good },
        Flow { group: &addresses.groups[0][1..], ..good },
        Flow { group: &[], ..good },
        Flow { group: &addresses.groups[4], ..good },
    ];
    for memory in [table.image(), unsound, Vec::new()] {
        for flow in flows {
            for room in [0, LEAST_OUTPUT - 1, LEAST_OUTPUT] {
                harness.table_call(&memory, asks(flow, &OUTPUT[..room]))?;
            }
        }
    }
    Ok(())
}

/// Every router, source and group on random tables.
fn every_flow(harness: &mut Harness, random: &mut Random, addresses: &Addresses, asks: Asks, count: usize) -> Checked {
    let places = count + random.below(3);
    let memory = addresses.table(random, places, count).image();
    for router in &addresses.routers {
        for source in &addresses.sources {
            for group in &addresses.groups {
                harness.table_call(&memory, asks(Flow { prefixes: EMPTY, router, source, group }, &OUTPUT))?;
            }
        }
    }
    Ok(())
}
