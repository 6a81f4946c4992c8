//! Bit strings of BIER packets (document 02, W-211): examples with their answers; every BFR-id in its set and in those beside it; every
//! set; lists of no Leaves to the most; every choice of a few Leaves that count or do not; Leaves in any order and given twice; outputs
//! of every size; random lists about few routes.

use super::{examples, refusals};
use crate::{
    cases::inputs::{
        lists::{counting, list, nearly, Item, EMPTY},
        near,
        routes::{picked, s_pmsi, Addresses},
        samples::GOOD_AFIS,
    },
    compare::{disagree, Checked, Disagreement, Harness},
    coverage::LEAVES,
    random::Random,
    second::bier::{
        packet::{BitString, Packet, MOST_LEAVES},
        string::STRING,
    },
};

pub fn all(harness: &mut Harness, random: &mut Random, cases: u64) -> Checked {
    examples::all(harness)?;
    for afi in GOOD_AFIS {
        let addresses = Addresses::of_family(afi);
        let asking = Asking::of(&addresses);
        asking.few_ids(harness, random)?;
        asking.every_set(harness, random)?;
        asking.choices(harness, random)?;
        asking.other_routes(harness, random)?;
        asking.outputs(harness, random)?;
        asking.numbers_of_leaves(harness, random)?;
        asking.full_sets(harness, random)?;
        refusals::all(harness, random, &asking)?;
        any_strings(harness, random, &addresses, cases)?;
        asking.every_id(harness, random)?;
    }
    Ok(())
}

/// A route with a BIER tunnel, and Leaves for it.
pub struct Asking<'a> {
    pub addresses: &'a Addresses,
    pub nlri: Vec<u8>,
    pub attribute: Vec<u8>,
}

/// The sub-domain of the route.
pub const SUB_DOMAIN: u8 = 7;

/// BFR-ids at which positions, octets and sets end and begin, and 0.
pub const IDS: [u16; 24] = [
    0, 1, 2, 8, 9, 64, 65, 128, 129, 192, 193, 255, 256, 257, 258, 512, 513, 32_768, 32_769, 65_279, 65_280, 65_281,
    65_534, 65_535,
];

const SETS: [u8; 8] = [0, 1, 2, 127, 128, 129, 254, 255];

/// A Leaf A-D route's NLRI (RFC 6514, section 4.4).
pub fn leaf(key: &[u8], originator: &[u8]) -> Vec<u8> {
    [&[4, (key.len() + originator.len()) as u8], key, originator].concat()
}

/// A PMSI Tunnel attribute with a BIER tunnel (RFC 8556, section 2).
pub fn bier(label: u8, sub_domain: u8, id: u16, prefix: &[u8]) -> Vec<u8> {
    [&[1, 11, 0, 0, label, sub_domain], &id.to_be_bytes()[..], prefix].concat()
}

impl<'a> Asking<'a> {
    fn of(addresses: &'a Addresses) -> Self {
        let Addresses { distinguishers, sources, groups, routers, .. } = addresses;
        let nlri = s_pmsi(&distinguishers[1], &sources[0], &groups[0], &routers[0]);
        Asking { addresses, nlri, attribute: bier(0x10, SUB_DOMAIN, 300, &routers[0]) }
    }

    pub fn packet<'b>(&'b self, set: u8, leaves: &'b [u8]) -> Packet<'b> {
        Packet { afi: self.addresses.afi, nlri: &self.nlri, attribute: &self.attribute, set, leaves }
    }

    /// A Leaf that counts for the route.
    pub fn leaf(&self, id: u16) -> Item {
        let Addresses { routers, .. } = self.addresses;
        [leaf(&self.nlri, &routers[1]), bier(0, SUB_DOMAIN, id, &routers[usize::from(id % 2) * 4])]
    }

    fn ask(&self, harness: &mut Harness, random: &mut Random, set: u8, items: &[Item]) -> Result<(), Disagreement> {
        let leaves = list(items);
        harness.bier_string(self.packet(set, &leaves), &any_output(random)).map(drop)
    }

    /// One and two of a few BFR-ids, in several sets.
    fn few_ids(&self, harness: &mut Harness, random: &mut Random) -> Checked {
        for (first, second) in IDS.iter().flat_map(|first| IDS.iter().map(move |second| (*first, *second))) {
            for set in SETS {
                self.ask(harness, random, set, &[self.leaf(first), self.leaf(second)])?;
            }
        }
        for (id, set) in IDS.iter().flat_map(|id| SETS.map(|set| (*id, set))) {
            self.ask(harness, random, set, &[self.leaf(id)])?;
        }
        Ok(())
    }

    /// Every BFR-id alone, in its set, in the next and in the one before.
    fn every_id(&self, harness: &mut Harness, random: &mut Random) -> Checked {
        for id in 0..=u16::MAX {
            let [of_id, _] = id.wrapping_sub(1).to_be_bytes();
            for set in [of_id, of_id.wrapping_add(1), of_id.wrapping_sub(1)] {
                self.ask(harness, random, set, &[self.leaf(id)])?;
            }
        }
        Ok(())
    }

    /// Every set, of Leaves whose BFR-ids lie in a few, in many and in all sets.
    fn every_set(&self, harness: &mut Harness, random: &mut Random) -> Checked {
        let few: Vec<Item> = IDS.iter().map(|id| self.leaf(*id)).collect();
        let many: Vec<Item> = (0..200).map(|_| self.leaf(random.number() as u16)).collect();
        let all: Vec<Item> = (0..=255u16).map(|set| self.leaf(256 * set + random.octet() as u16)).collect();
        for items in [few, many, all] {
            for set in 0..=255 {
                self.ask(harness, random, set, &items)?;
            }
        }
        Ok(())
    }

    /// A Leaf that counts, and what is nearly one: another key, tunnel or sub-domain, no BFR-id, another set; and some that count and
    /// differ in what makes no difference.
    pub fn kinds(&self) -> Vec<Item> {
        let Addresses { distinguishers, sources, groups, routers, .. } = self.addresses;
        let of = |key: &[u8], attribute: Vec<u8>| [leaf(key, &routers[1]), attribute];
        let key = |distinguisher: usize, source: &[u8], group: &[u8], router: usize| {
            s_pmsi(&distinguishers[distinguisher], source, group, &routers[router])
        };
        let good = || bier(0, SUB_DOMAIN, 300, &routers[0]);
        let with_type = |tunnel: u8, rest: &[u8]| {
            let mut attribute = [&good()[..8], rest].concat();
            attribute[1] = tunnel;
            attribute
        };
        vec![
            of(&self.nlri, good()),
            of(&self.nlri, bier(0, SUB_DOMAIN, 300, &routers[4])),
            of(&self.nlri, bier(0xFF, SUB_DOMAIN, 301, &routers[2])),
            [leaf(&self.nlri, &routers[4]), bier(0, SUB_DOMAIN, 300, &routers[1])],
            [leaf(&self.nlri, &routers[0]), bier(0, SUB_DOMAIN, 512, &routers[1])],
            of(&self.nlri, bier(0, SUB_DOMAIN, 0, &routers[0])),
            of(&self.nlri, bier(0, SUB_DOMAIN, 44, &routers[0])),
            of(&self.nlri, bier(0, SUB_DOMAIN, 256, &routers[0])),
            of(&self.nlri, bier(0, 0, 300, &routers[0])),
            of(&self.nlri, bier(0, SUB_DOMAIN + 1, 300, &routers[0])),
            of(&self.nlri, bier(0x10, SUB_DOMAIN | 0x80, 300, &routers[4])),
            of(&self.nlri, with_type(6, &[1])),
            of(&self.nlri, with_type(6, &routers[4][3..])),
            of(&self.nlri, with_type(1, &[0; 9])),
            of(&self.nlri, with_type(3, &[0; 5])),
            of(&self.nlri, vec![0; 5]),
            of(&key(2, &sources[0], &groups[0], 0), good()),
            of(&key(1, &sources[1], &groups[0], 0), good()),
            of(&key(1, &sources[0], &groups[1], 0), good()),
            of(&key(1, &sources[0], &[], 0), good()),
            of(&key(1, &[], &groups[0], 0), good()),
            of(&key(1, &[], &[], 0), good()),
            of(&key(1, &sources[0], &groups[0], 1), good()),
            of(&key(1, &sources[0], &groups[0], 2), good()),
            of(&[&[1, 12], &distinguishers[1][..], &routers[0]].concat(), good()),
            of(&[&[2, 12], &distinguishers[1][..], &[0, 0, 0xFD, 0xE8]].concat(), good()),
        ]
    }

    /// Every list of one and two of these, and of three of the first twelve.
    fn choices(&self, harness: &mut Harness, random: &mut Random) -> Checked {
        let kinds = self.kinds();
        for first in 0..kinds.len() {
            self.ask(harness, random, 1, &kinds[first..=first])?;
            for second in 0..kinds.len() {
                self.ask(harness, random, 1, &[kinds[first].clone(), kinds[second].clone()])?;
                for third in 0..if first.max(second) < 12 { 12 } else { 0 } {
                    let items = [first, second, third].map(|at| kinds[at].clone());
                    self.ask(harness, random, (third % 3 == 0).into(), &items)?;
                }
            }
        }
        Ok(())
    }

    /// All of these for other routes: those whose NLRI is one of their keys, with BFR-prefixes of both sizes; of every sub-domain; with
    /// every flag, which a Leaf need not have.
    fn other_routes(&self, harness: &mut Harness, random: &mut Random) -> Checked {
        let kinds = self.kinds();
        for [leaf, _] in &kinds[16..24] {
            for prefix in [0, 4] {
                let attribute = bier(0x20, SUB_DOMAIN, 300, &self.addresses.routers[prefix]);
                let route = Asking { attribute, nlri: leaf[2..4 + usize::from(leaf[3])].to_vec(), ..*self };
                for set in [0, 1, 2] {
                    route.ask(harness, random, set, &kinds)?;
                    route.ask(harness, random, set, &[route.leaf(300), kinds[0].clone(), route.leaf(0)])?;
                }
            }
        }
        for octet in 0..=255 {
            let mut route = Asking { nlri: self.nlri.clone(), attribute: self.attribute.clone(), ..*self };
            route.attribute[5] = octet;
            route.ask(harness, random, 1, &kinds)?;
            route.attribute[5] = SUB_DOMAIN;
            route.attribute[0] = octet;
            let mut leaf = self.leaf(258);
            leaf[1][0] = !octet;
            route.ask(harness, random, 1, &[leaf, self.leaf(257)])?;
        }
        Ok(())
    }

    /// Outputs of every size about 32 and of more, that hold zeros, ones and any octets; of strings with and without routers.
    fn outputs(&self, harness: &mut Harness, random: &mut Random) -> Checked {
        let lists = [EMPTY.to_vec(), list(&[self.leaf(0)]), list(&[self.leaf(1), self.leaf(256)]), list(&self.kinds())];
        for (leaves, set) in lists.iter().flat_map(|leaves| [(leaves, 0), (leaves, 1)]) {
            for size in (0..=70).chain([255, 256, 257, 288, 65_536, 65_568]) {
                for output in [vec![0; size], vec![0xFF; size], random.octets(size)] {
                    let after = random.octets(33);
                    harness.bier_string_before(self.packet(set, leaves), &output, &after)?;
                }
            }
        }
        Ok(())
    }

    /// Lists of no Leaves to the most and more, with as many items, one fewer and one more; the last one alone counts, or is refused.
    fn numbers_of_leaves(&self, harness: &mut Harness, random: &mut Random) -> Checked {
        let other = self.kinds().swap_remove(9);
        for count in LEAVES.into_iter().chain([63, 65, 255, 256, 257, 511, 512, 513, 1_022, 1_025, 1_026, 2_048]) {
            let all = |item: &Item| vec![item.clone(); count];
            let mut last_counts = all(&other);
            let mut last_kind = all(&self.leaf(258));
            let mut last_short = all(&self.leaf(258));
            if let (Some(counts), Some(kind), Some(short)) =
                (last_counts.last_mut(), last_kind.last_mut(), last_short.last_mut())
            {
                *counts = self.leaf(257);
                kind[0] = self.nlri.clone();
                short[1].clear();
            }
            let different: Vec<Item> = (0..count).map(|at| self.leaf(at as u16 + 1)).collect();
            for items in [all(&other), all(&self.leaf(257)), last_counts, last_kind, last_short, different] {
                for set in 0..if LEAVES.contains(&count) { 26 } else { 5 } {
                    self.ask(harness, random, set, &items)?;
                }
                let (fewer, more) = (&items[..count.saturating_sub(1)], [&items[..], &[self.leaf(1)]].concat());
                for held in [fewer, &more] {
                    let leaves = counting(count, held);
                    harness.bier_string(self.packet(1, &leaves), &any_output(random))?;
                }
            }
        }
        for count in [1_279, 1_280, 32_768, 64_512, 65_535] {
            for items in [vec![], vec![[vec![], vec![]]; count], vec![self.leaf(1); count]] {
                let leaves = counting(count, &items);
                for room in [0, STRING] {
                    harness.bier_string(self.packet(0, &leaves), &vec![0x5A; room])?;
                }
            }
        }
        Ok(())
    }

    /// Every position of a set, all but one, and each of them twice; in several sets, in order and shuffled. The string of a list does not
    /// depend on the order of its Leaves, nor on how often one is given.
    fn full_sets(&self, harness: &mut Harness, random: &mut Random) -> Checked {
        for set in SETS {
            let first = 256 * u16::from(set);
            let every: Vec<Item> = (1..=256).filter_map(|at| first.checked_add(at)).map(|id| self.leaf(id)).collect();
            for round in 0..24 {
                let mut items = every.clone();
                match round % 3 {
                    0 => {}
                    1 => drop(items.remove(random.below(255))),
                    _ => {
                        let most = 1 + random.below(256);
                        random.shuffle(&mut items);
                        items.truncate(most);
                    }
                }
                items.push(self.leaf(0));
                let once = self.answered(harness, set, &items)?;
                let mut twice = [&items[..], &items].concat();
                random.shuffle(&mut twice);
                let again = self.answered(harness, set, &twice)?;
                if once != again {
                    return disagree(
                        format!("set {set}, Leaves twice and in any order"),
                        format!("{again:?}"),
                        format!("{once:?}"),
                    );
                }
            }
        }
        Ok(())
    }

    fn answered(&self, harness: &mut Harness, set: u8, items: &[Item]) -> Result<BitString, Disagreement> {
        let leaves = list(items);
        harness.bier_string(self.packet(set, &leaves), &[0x3C; STRING + 3])
    }
}

/// An output that is large enough, and holds something else each time.
pub fn any_output(random: &mut Random) -> Vec<u8> {
    let size = STRING + random.pick(&[0, 0, 0, 1, 8, 32]);
    match random.below(4) {
        0 => vec![0; size],
        1 => vec![0xFF; size],
        _ => random.octets(size),
    }
}

// ---- any lists

fn any_strings(harness: &mut Harness, random: &mut Random, addresses: &Addresses, cases: u64) -> Checked {
    for _ in 0..5_000 + cases / 20 {
        let AnyPacket { afi, nlri, attribute, set, leaves } = any_packet(random, addresses);
        let packet = Packet { afi, nlri: &nlri, attribute: &attribute, set, leaves: &leaves };
        let room = if random.once_in(16) { random.below(STRING + 1) } else { STRING + random.below(3) };
        let output = random.octets(room);
        harness.bier_string(packet, &output)?;
    }
    Ok(())
}

/// A `Packet` with its octets.
pub struct AnyPacket {
    pub afi: u16,
    pub nlri: Vec<u8>,
    pub attribute: Vec<u8>,
    pub set: u8,
    pub leaves: Vec<u8>,
}

/// A route over few addresses, with a list of Leaves whose keys and tunnels are often its own; seldom one that is not well-formed.
pub fn any_packet(random: &mut Random, addresses: &Addresses) -> AnyPacket {
    let set = random.pick(&[0, 0, 1, 1, 2, 127, 128, 254, 255]);
    let sub_domain = random.pick(&[0, 1, 1, 128, 255]);
    let mut nlri = addresses.nlri(random);
    let mut attribute = any_tunnel(random, addresses, set, sub_domain, true);
    let count = match random.below(200) {
        0 => MOST_LEAVES - 2 + random.below(4),
        1..=9 => random.below(60),
        _ => random.below(8),
    };
    let items: Vec<Item> = (0..count).map(|_| near_leaf(random, addresses, &nlri, set, sub_domain)).collect();
    let leaves = nearly(random, list(&items));
    match random.below(60) {
        0 => near::disturb_nlri(random, &mut nlri),
        1 => near::disturb(random, &mut attribute),
        2 => attribute = near::attribute(random),
        3 => nlri = near::nlri(random, addresses.afi),
        _ => {}
    }
    let afi = if random.once_in(60) { near::afi(random) } else { addresses.afi };
    AnyPacket { afi, nlri, attribute, set, leaves }
}

/// A BIER tunnel whose BFR-id is mostly of the set or right beside it; of a route with a label.
fn any_tunnel(random: &mut Random, addresses: &Addresses, set: u8, sub_domain: u8, of_route: bool) -> Vec<u8> {
    let first = 256 * u16::from(set);
    let id = match random.below(8) {
        0 => random.pick(&IDS),
        1 => random.number() as u16,
        2 => first.wrapping_add(random.pick(&[0, 1, 256, 257])),
        _ => first.wrapping_add(1 + random.below(40) as u16),
    };
    let label = if of_route && !random.once_in(60) { 0x10 } else { random.pick(&[0, 0x0F, 0x10, 0xFF]) };
    let mut attribute = bier(label, sub_domain, id, picked(random, &addresses.routers));
    attribute[0] = random.octet();
    attribute
}

fn near_leaf(random: &mut Random, addresses: &Addresses, nlri: &[u8], set: u8, sub_domain: u8) -> Item {
    let key = if random.once_in(4) { addresses.nlri(random) } else { nlri.to_vec() };
    let sub_domain = if random.once_in(8) { random.octet() } else { sub_domain };
    let mut attribute = any_tunnel(random, addresses, set, sub_domain, false);
    let mut leaf = leaf(&key, picked(random, &addresses.routers));
    match random.below(160) {
        0 => near::disturb(random, &mut attribute),
        1 => near::disturb_nlri(random, &mut leaf),
        2 => leaf = near::of_type(random, addresses.afi, 4),
        3 => leaf = near::nlri(random, addresses.afi),
        4..=13 => attribute = near::attribute(random),
        _ => {}
    }
    [leaf, attribute]
}
