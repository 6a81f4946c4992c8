//! Lists that are lent, laid out octet by octet: Source Active routes with their originators, states, and prefixes.

use super::{
    near,
    routes::{picked, source_active, Addresses, SSM_GROUPS},
    samples::discarded,
};
use crate::random::Random;

/// The two fields of an item: originator and NLRI of a Source Active route, or source and group of a state.
pub type Item = [Vec<u8>; 2];

/// The one field of a prefix: its length in bits, then its address.
pub type Prefix = [Vec<u8>; 1];

/// A list of no items.
pub const EMPTY: &[u8] = &[0, 0];

pub fn list<const FIELDS: usize>(items: &[[Vec<u8>; FIELDS]]) -> Vec<u8> {
    counting(items.len(), items)
}

/// A list that says that it has so many items.
pub fn counting<const FIELDS: usize>(count: usize, items: &[[Vec<u8>; FIELDS]]) -> Vec<u8> {
    let sized = |field: &Vec<u8>| [&(field.len() as u16).to_be_bytes(), &field[..]].concat();
    [(count as u16).to_be_bytes().to_vec()]
        .into_iter()
        .chain(items.as_flattened().iter().map(sized))
        .flatten()
        .collect()
}

pub fn prefix(length: u8, address: &[u8]) -> Prefix {
    [[&[length], address].concat()]
}

/// The prefix of this length that holds an address: every bit past the length is clear.
pub fn prefix_of(length: u8, address: &[u8]) -> Prefix {
    let mut cleared = address.to_vec();
    (length.into()..8 * address.len()).for_each(|bit| set(&mut cleared, bit, false));
    prefix(length, &cleared)
}

/// Sets or clears a bit, counted from the first octet's highest.
pub fn set(address: &mut [u8], bit: usize, value: bool) {
    let mask = 0x80 >> (bit % 8);
    match value {
        true => address[bit / 8] |= mask,
        false => address[bit / 8] &= !mask,
    }
}

impl Addresses {
    /// A list of prefixes about the groups; seldom one that is not well-formed.
    pub fn any_prefixes(&self, random: &mut Random) -> Vec<u8> {
        let count = match random.below(16) {
            0 => 9 + random.below(3),
            1 | 2 => 5 + random.below(4),
            _ => random.below(5),
        };
        let items: Vec<Prefix> = (0..count).map(|_| self.near_prefix(random)).collect();
        nearly(random, list(&items))
    }

    /// A prefix that holds one of the groups, or about so; seldom one that is not well-formed.
    fn near_prefix(&self, random: &mut Random) -> Prefix {
        let mut group = picked(random, &self.groups).to_vec();
        let bits = 8 * group.len();
        let length = random.below(bits + 1);
        if random.once_in(3) {
            let bit = random.below(bits);
            group[bit / 8] ^= 0x80 >> (bit % 8);
        }
        let [mut field] = prefix_of(length as u8, &group);
        match random.below(80) {
            0 => near::disturb(random, &mut field),
            1 => field[0] = random.octet(),
            2 => set(&mut field[1..], random.below(bits), true),
            _ => {}
        }
        [field]
    }

    /// A Source Active route that is read, with its originator.
    pub fn source_active(&self, random: &mut Random) -> Item {
        let [distinguisher, source, group] = [&self.distinguishers, &self.sources, &self.groups[SSM_GROUPS..]]
            .map(|addresses| picked(random, addresses));
        [picked(random, &self.routers).to_vec(), source_active(distinguisher, source, group)]
    }

    pub fn state(&self, random: &mut Random) -> Item {
        [&self.sources, &self.groups].map(|addresses| picked(random, addresses).to_vec())
    }

    /// A list of Source Active routes; seldom one that is not well-formed.
    pub fn source_actives(&self, random: &mut Random) -> Vec<u8> {
        let items: Vec<Item> = (0..few(random)).map(|_| self.near_source_active(random)).collect();
        nearly(random, list(&items))
    }

    fn near_source_active(&self, random: &mut Random) -> Item {
        let [mut originator, mut nlri] = self.source_active(random);
        match random.below(120) {
            0 => near::disturb(random, &mut originator),
            1 => nlri = near::nlri(random, self.afi),
            2 | 3 => near::disturb_nlri(random, &mut nlri),
            4 => nlri = discarded(self.afi).octets,
            _ => {}
        }
        [originator, nlri]
    }

    /// A list of states; seldom one with an address of another size.
    pub fn states(&self, random: &mut Random) -> Vec<u8> {
        let items: Vec<Item> = (0..few(random)).map(|_| self.near_state(random)).collect();
        nearly(random, list(&items))
    }

    fn near_state(&self, random: &mut Random) -> Item {
        let mut state = self.state(random);
        let field = random.below(2);
        if random.once_in(60) {
            near::disturb(random, &mut state[field]);
        }
        state
    }
}

/// A number of items, mostly under eight.
fn few(random: &mut Random) -> usize {
    match random.below(200) {
        0 => 250 + random.below(10),
        1..=9 => random.below(40),
        _ => random.below(8),
    }
}

/// The list as it is, or with octets after it, or seldom disturbed.
pub fn nearly(random: &mut Random, mut list: Vec<u8>) -> Vec<u8> {
    match random.below(16) {
        0 => near::disturb(random, &mut list),
        1 => list.extend(random.octets(3)),
        _ => {}
    }
    list
}
