//! Plans (document 02, W-214): examples; every arrangement of a few places; every octet of small proposals and of wishes; places with each
//! NLRI and attribute that install accepts or refuses; proposals drawn first, with flows that take their routes, and then changed; the most
//! places and the most flows; every choice of what a few flows want; outputs of every size about the one that is asked.

use super::{examples, refusals};
use crate::{
    cases::inputs::{
        lists::{list, EMPTY},
        places::laid_out,
        routes::{bad_attributes, bad_nlris, good_attributes, picked, s_pmsi, Addresses, NO_TUNNEL},
        samples::GOOD_AFIS,
    },
    compare::{Checked, Harness, Input},
    hexadecimal::octets,
    random::Random,
    second::{
        matches::choice::{Flow, LEAST_OUTPUT},
        plan::wish::{Wish, LONGEST_PROPOSAL, MOST_FLOWS},
        table::{
            calls::TableCall,
            memory::{Routes, Table, PLACE},
        },
        Second,
    },
};

/// Source, group and the attribute wanted.
pub type Wanted = [Vec<u8>; 3];

/// A wish whose parts can be changed one by one.
#[derive(Clone)]
pub struct Case {
    pub afi: u16,
    pub prefixes: Vec<u8>,
    pub originator: Vec<u8>,
    pub distinguisher: Vec<u8>,
    pub flows: Vec<Wanted>,
}

impl Case {
    pub fn of(addresses: &Addresses, flows: Vec<Wanted>) -> Self {
        Case {
            afi: addresses.afi,
            prefixes: EMPTY.to_vec(),
            originator: addresses.routers[0].clone(),
            distinguisher: addresses.distinguishers[1].clone(),
            flows,
        }
    }

    /// The wish, with this list of flows.
    pub fn wish<'a>(&'a self, flows: &'a [u8]) -> Wish<'a> {
        let Case { afi, prefixes, originator, distinguisher, .. } = self;
        Wish { afi: *afi, prefixes, originator, distinguisher, flows }
    }

    pub fn judge<'a>(&self, harness: &mut Harness, places: impl Into<Input<'a>>) -> Checked {
        harness.judge(&self.wish(&list(&self.flows)), places).map(drop)
    }

    /// A plan with an output that is large enough and holds something else each time.
    pub fn plan(&self, harness: &mut Harness, random: &mut Random) -> Checked {
        let more = random.pick(&[0, 0, 1, 127, 128, 200]);
        let output = random.octets(PLACE * self.flows.len() + more);
        harness.plan(&self.wish(&list(&self.flows)), &output).map(drop)
    }

    /// The place of a route of the originator and the distinguisher.
    pub fn place(&self, source: &[u8], group: &[u8], attribute: &[u8], mark: u8) -> Vec<u8> {
        laid_out(&s_pmsi(&self.distinguisher, source, group, &self.originator), attribute, mark)
    }
}

pub fn all(harness: &mut Harness, random: &mut Random, cases: u64) -> Checked {
    examples::all(harness)?;
    for afi in GOOD_AFIS {
        let addresses = Addresses::of_family(afi);
        choices(harness, random, &addresses)?;
        arrangements(harness, &addresses)?;
        every_octet(harness, &addresses)?;
        every_octet_of_wishes(harness, random, &addresses)?;
        proposal_sizes(harness, random, &addresses)?;
        output_sizes(harness, random, &addresses)?;
        single_places(harness, random, &addresses)?;
        largest(harness, random, &addresses)?;
        refusals::all(harness, random, &addresses)?;
        drawn(harness, random, &addresses, cases)?;
        wished(harness, random, &addresses, cases)?;
    }
    Ok(())
}

/// Attributes that may be wanted, all different.
pub fn wanted_attributes() -> Vec<Vec<u8>> {
    good_attributes().into_iter().filter(|attribute| attribute[1] != 0).collect()
}

/// So many different flows; the last octets of source and group count them.
pub fn many_flows(addresses: &Addresses, count: usize) -> Vec<[Vec<u8>; 2]> {
    let numbered = |address: &[u8], number: usize| [&address[..address.len() - 1], &[number as u8]].concat();
    let groups = [&addresses.groups[0], &addresses.groups[2]];
    (0..count).map(|at| [numbered(&addresses.sources[0], at / 4), numbered(groups[at % 2], 2 + at / 2 % 2)]).collect()
}

/// What each of four flows wants, in every choice of three attributes, for flows that share sources, groups or neither, also by prefixes; the
/// one among them that is listed again.
fn choices(harness: &mut Harness, random: &mut Random, addresses: &Addresses) -> Checked {
    let attributes = &wanted_attributes()[..3];
    let flows = |pairs: [(usize, usize); 4]| {
        pairs.map(|(source, group)| [addresses.sources[source].clone(), addresses.groups[group].clone()])
    };
    let sets = [
        flows([(0, 0), (0, 1), (1, 0), (1, 1)]),
        flows([(0, 2), (0, 3), (1, 2), (1, 3)]),
        flows([(0, 0), (1, 1), (0, 2), (1, 3)]),
        flows([(0, 0), (1, 0), (2, 0), (0, 2)]),
        flows([(0, 0), (0, 1), (0, 2), (0, 3)]),
        flows([(0, 2), (0, 2), (1, 2), (2, 2)]),
    ];
    for (set, choice) in sets.iter().flat_map(|set| (0..81).map(move |choice| (set, choice))) {
        let wants = |(at, [source, group]): (usize, &[Vec<u8>; 2])| {
            [source.clone(), group.clone(), attributes[choice / 3usize.pow(at as u32) % 3].clone()]
        };
        let mut case = Case::of(addresses, set.iter().enumerate().map(wants).collect());
        case.plan(harness, random)?;
        case.prefixes = picked(random, &addresses.prefixes).to_vec();
        case.plan(harness, random)?;
        case.flows.push(case.flows[choice % 4].clone());
        case.plan(harness, random)?;
    }
    Ok(())
}

/// Every list of up to three of these places, for flows that want two attributes.
fn arrangements(harness: &mut Harness, addresses: &Addresses) -> Checked {
    let Addresses { sources, groups, routers, distinguishers, .. } = addresses;
    let attributes = wanted_attributes();
    let [first, second] = [&attributes[0], &attributes[1]];
    let flow =
        |source: usize, group: usize, wanted: &[u8]| [sources[source].clone(), groups[group].clone(), wanted.to_vec()];
    let case = Case::of(addresses, vec![flow(0, 0, first), flow(0, 2, second), flow(1, 2, second)]);
    let other_router = Case { originator: routers[2].clone(), ..case.clone() };
    let other_distinguisher = Case { distinguisher: distinguishers[0].clone(), ..case.clone() };
    let places = [
        vec![0; PLACE],
        case.place(&[], &[], first, 0),
        case.place(&[], &[], second, 1),
        case.place(&sources[0], &groups[0], first, 0),
        case.place(&sources[0], &[], first, 0),
        case.place(&[], &groups[2], second, 0),
        case.place(&[], &groups[2], &octets(NO_TUNNEL[0]), 0),
        case.place(&sources[0], &groups[2], second, 1),
        other_router.place(&[], &[], second, 0),
        other_distinguisher.place(&sources[1], &groups[2], second, 0),
    ];
    let lists = (0..=3u32).flat_map(|size| (0..places.len().pow(size)).map(move |choice| (size, choice)));
    for (size, choice) in lists {
        let proposal: Vec<u8> =
            (0..size).flat_map(|at| places[choice / places.len().pow(at) % places.len()].clone()).collect();
        case.judge(harness, &proposal)?;
        if choice % 7 == 0 {
            other_router.judge(harness, &proposal)?;
            Case { prefixes: addresses.prefixes[2].clone(), ..case.clone() }.judge(harness, &proposal)?;
        }
    }
    Ok(())
}

/// Every value of each octet of a proposal of one place, and several of each octet of one of two; each cut, with the rest behind it.
fn every_octet(harness: &mut Harness, addresses: &Addresses) -> Checked {
    let attributes = wanted_attributes();
    let flow = |at: usize, wanted: &[u8]| [addresses.sources[at].clone(), addresses.groups[0].clone(), wanted.to_vec()];
    let one = Case::of(addresses, vec![flow(0, &attributes[0])]);
    let two = Case::of(addresses, vec![flow(0, &attributes[0]), flow(1, &attributes[1])]);
    let [source, group] = [&addresses.sources[0], &addresses.groups[0]];
    let small = one.place(source, group, &attributes[0], 0);
    let large = [two.place(source, &[], &attributes[0], 1), two.place(&[], &[], &attributes[1], 0)].concat();
    for (at, value) in (0..small.len()).flat_map(|at| (0..=255).map(move |value| (at, value))) {
        one.judge(harness, &[&small[..at], &[value], &small[at + 1..]].concat())?;
    }
    for (at, kept) in large.iter().enumerate() {
        for value in [0, 1, 2, kept ^ 1, kept ^ 0x80, 255, kept.wrapping_add(1), kept.wrapping_sub(1)] {
            two.judge(harness, &[&large[..at], &[value], &large[at + 1..]].concat())?;
        }
    }
    for cut in 0..=large.len() {
        two.judge(harness, Input::cut(&large, cut))?;
        one.judge(harness, Input::cut(&[&small[..], &large].concat(), cut))?;
    }
    Ok(())
}

/// Other values at each octet of what is wished for: the flows, the originator, the distinguisher and the prefixes.
fn every_octet_of_wishes(harness: &mut Harness, random: &mut Random, addresses: &Addresses) -> Checked {
    let attributes = wanted_attributes();
    let [source, group] = [&addresses.sources[0], &addresses.groups[2]];
    let flow = |source: &Vec<u8>, wanted: &[u8]| [source.clone(), group.clone(), wanted.to_vec()];
    let flows =
        vec![flow(source, &attributes[0]), flow(&addresses.sources[1], &attributes[1]), flow(source, &attributes[0])];
    let case = Case { prefixes: addresses.prefixes[2].clone(), ..Case::of(addresses, flows) };
    let proposal = [case.place(source, &[], &attributes[0], 0), case.place(&[], &[], &attributes[1], 0)].concat();
    let parts = [list(&case.flows), case.originator.clone(), case.distinguisher.clone(), case.prefixes.clone()];
    for (part, at) in parts.iter().enumerate().flat_map(|(part, octets)| (0..octets.len()).map(move |at| (part, at))) {
        for difference in [1, 2, 4, 8, 12, 16, 0x80, 0xFF] {
            let mut changed = parts.clone();
            changed[part][at] ^= difference;
            let [flows, originator, distinguisher, prefixes] = &changed;
            let wish = Wish { afi: addresses.afi, prefixes, originator, distinguisher, flows };
            harness.judge(&wish, &proposal)?;
            harness.plan(&wish, &random.octets(PLACE * 3))?;
        }
    }
    Ok(())
}

/// Proposals of each size up to three places, and about the most; all good as far as they go.
fn proposal_sizes(harness: &mut Harness, random: &mut Random, addresses: &Addresses) -> Checked {
    let flows = many_flows(addresses, MOST_FLOWS + 2);
    let attributes = wanted_attributes();
    let wants = |[source, group]: &[Vec<u8>; 2]| [source.clone(), group.clone(), attributes[0].clone()];
    let case = Case::of(addresses, flows[..2].iter().map(wants).collect());
    let places: Vec<u8> =
        flows.iter().flat_map(|[source, group]| case.place(source, group, &attributes[0], 0)).collect();
    let about = [PLACE * 63, LONGEST_PROPOSAL, places.len() - PLACE].map(|size| size - 2..=size + 2);
    for size in (0..=PLACE * 3 + 1).chain(about.into_iter().flatten()) {
        case.judge(harness, Input::cut(&places, size))?;
    }
    for size in [LONGEST_PROPOSAL + 1, 2 * LONGEST_PROPOSAL, 65_536, 65_536 + PLACE] {
        case.judge(harness, &vec![0; size])?;
    }
    // The same places in other orders, so that each stands at each end.
    for size in [2, 3, 63, 64] {
        let mut list: Vec<&[u8]> = places.chunks(PLACE).take(size).collect();
        random.shuffle(&mut list);
        case.judge(harness, &list.concat())?;
    }
    Ok(())
}

/// Outputs of each size about 128 octets a flow, of flows that differ, are listed again, or all want the same.
fn output_sizes(harness: &mut Harness, random: &mut Random, addresses: &Addresses) -> Checked {
    let attributes = wanted_attributes();
    let flows = many_flows(addresses, MOST_FLOWS);
    for count in [0usize, 1, 2, 3, 4, 8, 63, 64] {
        for (different, kinds) in [(count, 1), (count, 2), (count, count.max(1)), (1, 1), (count.div_ceil(2).max(1), 3)]
        {
            let wants = |at: usize| {
                let [source, group] = &flows[at % different.max(1)];
                [source.clone(), group.clone(), attributes[at % different.max(1) % kinds % attributes.len()].clone()]
            };
            let case = Case::of(addresses, (0..count).map(wants).collect());
            let listed = list(&case.flows);
            let asked = PLACE * count;
            let sizes =
                [0, 1, PLACE - 1, PLACE, PLACE + 1, asked / 2, asked.saturating_sub(PLACE), asked.saturating_sub(1)];
            for size in
                sizes.into_iter().chain([asked, asked + 1, asked + PLACE, LONGEST_PROPOSAL, LONGEST_PROPOSAL + 1])
            {
                harness.plan(&case.wish(&listed), &random.octets(size))?;
            }
        }
    }
    Ok(())
}

/// A place with each NLRI and attribute that install accepts or refuses, alone, before and behind a good one.
fn single_places(harness: &mut Harness, random: &mut Random, addresses: &Addresses) -> Checked {
    let attributes = wanted_attributes();
    let [source, group] = [&addresses.sources[0], &addresses.groups[0]];
    let case = Case::of(addresses, vec![[source.clone(), group.clone(), attributes[0].clone()]]);
    let none = Case { flows: Vec::new(), ..case.clone() };
    let good = case.place(&[], &[], &attributes[0], 0);
    let own = s_pmsi(&case.distinguisher, source, group, &case.originator);
    let nlris = [bad_nlris(addresses.afi), vec![own], addresses.nlris(random, 20)].concat();
    for nlri in &nlris {
        for attribute in [bad_attributes(), good_attributes()].concat() {
            if 2 + nlri.len() + attribute.len() < PLACE {
                let place = laid_out(nlri, &attribute, 0);
                none.judge(harness, &place)?;
                case.judge(harness, &[&place[..], &good].concat())?;
                case.judge(harness, &[&good[..], &place].concat())?;
            }
        }
    }
    Ok(())
}

/// The most flows and about as many, of few and of many attributes, with proposals of the most places.
fn largest(harness: &mut Harness, random: &mut Random, addresses: &Addresses) -> Checked {
    let attributes = wanted_attributes();
    for count in [62, 63, 64, 65, 66] {
        for kinds in [1, 2, 3, 32, 64] {
            let attribute = |kind: usize| {
                let mut attribute = attributes[kind % attributes.len()].clone();
                attribute[0] = kind as u8;
                attribute
            };
            let wants = |(at, [source, group]): (usize, [Vec<u8>; 2])| [source, group, attribute(at * 7 % kinds)];
            let mut case =
                Case::of(addresses, many_flows(addresses, count).into_iter().enumerate().map(wants).collect());
            random.shuffle(&mut case.flows);
            for _ in 0..12 {
                case.plan(harness, random)?;
            }
            let exact: Vec<Vec<u8>> =
                case.flows.iter().map(|[source, group, wanted]| case.place(source, group, wanted, 0)).collect();
            case.judge(harness, &exact.concat())?;
            case.judge(harness, &exact[1..].concat())?;
            let repeated = [&exact[1..], &exact[count - 1..]].concat();
            case.judge(harness, &repeated.concat())?;
            let mut changed = exact.concat();
            let place = random.below(changed.len());
            changed[place] ^= 1;
            case.judge(harness, &changed)?;
            // One flow alone wants something else: the first, one in the middle, the last.
            for at in [0, count / 2, count - 1] {
                let mut other = case.clone();
                other.flows[at][2] = octets("80 06 FFFFF0 0A0000FF");
                other.judge(harness, &exact.concat())?;
                other.plan(harness, random)?;
            }
        }
    }
    Ok(())
}

/// Routes of one originator and distinguisher over few addresses, about a seventh of them without a tunnel, some of them marked.
fn any_routes(random: &mut Random, case: &Case, addresses: &Addresses, attributes: &[Vec<u8>]) -> Routes {
    let count = match random.below(6) {
        0 => random.below(3),
        1 => 8 + random.below(8),
        _ => 1 + random.below(6),
    };
    let mut routes = Routes::new();
    for _ in 0..count {
        let [source, group] = [&addresses.sources, &addresses.groups].map(|addresses| match random.once_in(3) {
            true => Vec::new(),
            false => picked(random, addresses).to_vec(),
        });
        let attribute = match random.once_in(7) {
            true => octets(random.pick(&NO_TUNNEL)),
            false => picked(random, attributes).to_vec(),
        };
        routes.insert(s_pmsi(&case.distinguisher, &source, &group, &case.originator), attribute);
    }
    routes
}

/// The flows that take one of these routes, each with the attribute that it takes.
fn takers(random: &mut Random, case: &Case, addresses: &Addresses, routes: &Routes) -> Vec<Wanted> {
    let image = Table::holding(case.afi, routes.len(), routes.clone()).image();
    let mut flows = Vec::new();
    for _ in 0..random.below(12) {
        let (source, group) = (picked(random, &addresses.sources), picked(random, &addresses.groups[..4]));
        let flow = Flow { prefixes: &case.prefixes, router: &case.originator, source, group };
        let (answer, _) = Second::sound().on_memory(&image, &TableCall::Match { flow, output: &[0; LEAST_OUTPUT] });
        if let Some((matched, output)) = answer.matched().filter(|(matched, _)| matched.tier != 0) {
            let attribute = &output[matched.nlri_size as usize..][..matched.attribute_size as usize];
            flows.push([source.to_vec(), group.to_vec(), attribute.to_vec()]);
        }
    }
    flows
}

/// A proposal that is drawn first, and a wish of flows that take its routes; with the attributes that these have.
pub fn any_proposal(random: &mut Random, addresses: &Addresses) -> (Case, Vec<Vec<u8>>, Vec<Vec<u8>>) {
    let all = wanted_attributes();
    let kinds = 1 + random.below(4);
    let attributes: Vec<Vec<u8>> = (0..kinds).map(|_| picked(random, &all).to_vec()).collect();
    let mut case = Case::of(addresses, Vec::new());
    case.originator = picked(random, &addresses.routers).to_vec();
    case.distinguisher = picked(random, &addresses.distinguishers).to_vec();
    if random.once_in(2) {
        case.prefixes = picked(random, &addresses.prefixes).to_vec();
    }
    let routes = any_routes(random, &case, addresses, &attributes);
    case.flows = takers(random, &case, addresses, &routes);
    let mut places: Vec<Vec<u8>> =
        routes.iter().map(|(nlri, attribute)| laid_out(nlri, attribute, random.once_in(4).into())).collect();
    random.shuffle(&mut places);
    (case, places, attributes)
}

/// Proposals that are drawn first, for flows that take their routes: as they are, by other prefixes, and with one thing changed.
fn drawn(harness: &mut Harness, random: &mut Random, addresses: &Addresses, cases: u64) -> Checked {
    for _ in 0..2_000 + cases / 200 {
        let (case, places, attributes) = any_proposal(random, addresses);
        case.judge(harness, &places.concat())?;
        case.plan(harness, random)?;
        let by_other = Case { prefixes: picked(random, &addresses.prefixes).to_vec(), ..case.clone() };
        by_other.judge(harness, &places.concat())?;
        for _ in 0..3 {
            let (mut case, mut places) = (case.clone(), places.clone());
            change(random, &mut case, &mut places, addresses, &attributes);
            case.judge(harness, &places.concat())?;
        }
    }
    Ok(())
}

/// One thing about a proposal or its wish is another.
pub fn change(
    random: &mut Random,
    case: &mut Case,
    places: &mut Vec<Vec<u8>>,
    addresses: &Addresses,
    attributes: &[Vec<u8>],
) {
    let at = random.below(places.len().max(1));
    let flow = random.below(case.flows.len().max(1));
    let octet = random.below(PLACE);
    match (random.below(13), places.get(at).cloned(), case.flows.get_mut(flow)) {
        (0, Some(_), _) => places[at][octet] ^= 1 << random.below(8),
        (1, Some(_), _) => places[at][octet] = random.octet(),
        (2, Some(_), _) => drop(places.remove(at)),
        (3, Some(place), _) => places.push(place),
        (4, Some(_), _) => places[at][PLACE - 1] ^= 1,
        (5, Some(place), _) if place[0] >= 16 => {
            let (nlri, mark) = (&place[2..][..place[0].into()], place[PLACE - 1]);
            places[at] = laid_out(nlri, picked(random, attributes), mark);
        }
        (6, Some(_), _) => places[at].truncate(octet),
        (7, _, Some(flow)) => flow[2] = picked(random, attributes).to_vec(),
        (8, _, Some(flow)) => flow[1] = picked(random, &addresses.groups).to_vec(),
        (9, _, _) => case.prefixes = picked(random, &addresses.prefixes).to_vec(),
        (10, _, _) => case.originator = picked(random, &addresses.routers).to_vec(),
        (11, _, _) => case.distinguisher = picked(random, &addresses.distinguishers).to_vec(),
        _ => places.insert(at, vec![0; PLACE]),
    }
}

/// Flows that want what they like, planned and, with the places of another wish, judged.
fn wished(harness: &mut Harness, random: &mut Random, addresses: &Addresses, cases: u64) -> Checked {
    let all = wanted_attributes();
    for _ in 0..2_000 + cases / 200 {
        let count = match random.below(8) {
            0 => random.below(65),
            _ => random.below(9),
        };
        let kinds = 1 + random.below(4);
        let attributes: Vec<Vec<u8>> = (0..kinds).map(|_| picked(random, &all).to_vec()).collect();
        let many = many_flows(addresses, MOST_FLOWS);
        let mut flows: Vec<Wanted> = Vec::new();
        for _ in 0..count {
            let [source, group] = match count > 12 {
                true => many[random.below(many.len())].clone(),
                false => [&addresses.sources[..], &addresses.groups[..4]].map(|them| picked(random, them).to_vec()),
            };
            let before =
                flows.iter().find(|flow| flow[..2] == [source.clone(), group.clone()]).map(|flow| flow[2].clone());
            let wanted = match before {
                Some(wanted) if !random.once_in(40) => wanted,
                _ => picked(random, &attributes).to_vec(),
            };
            flows.push([source, group, wanted]);
        }
        let mut case = Case::of(addresses, flows);
        case.originator = picked(random, &addresses.routers).to_vec();
        if random.once_in(2) {
            case.prefixes = addresses.any_prefixes(random);
        }
        case.plan(harness, random)?;
        let commonest = case.place(&[], &[], &attributes[0], 0);
        let others = case.flows.iter().filter(|flow| flow[2] != attributes[0]);
        let mut places: Vec<Vec<u8>> =
            others.map(|[source, group, wanted]| case.place(source, group, wanted, 0)).collect();
        places.push(commonest);
        if random.once_in(2) {
            places.sort();
            places.dedup();
        }
        random.shuffle(&mut places);
        case.judge(harness, &places.concat())?;
    }
    Ok(())
}
