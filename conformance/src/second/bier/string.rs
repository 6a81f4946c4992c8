//! The string of a BIER packet (RFC 8279, section 3). The BFR-ids that count are a set of numbers; of each position of the string it is
//! asked whether the set has its number.

use super::{
    leaves::Egressing,
    packet::{Arguments, Route},
};
use crate::second::{fault::Fault, Second};
use std::collections::BTreeSet;

/// The octets of a string.
pub const STRING: usize = 32;

/// The positions of a string, which a set has too.
const POSITIONS: u32 = 256;

impl Second {
    /// The string that these Leaves make, and how many egress routers are told.
    pub(super) fn string(&self, arguments: &Arguments, leaves: &[Route]) -> ([u8; STRING], u32) {
        let counting = self.counting_leaves(arguments, leaves);
        let ids = self.ids(arguments, &counting);
        let set = u32::from(arguments.packet.set);
        let held: BTreeSet<u32> = (1..=POSITIONS).filter(|position| self.holds(&ids, set, *position)).collect();
        let bit = |at: usize, bit: u32| u8::from(held.contains(&self.position(at as u32, bit))) << bit;
        let string = std::array::from_fn(|at| (0..8).map(|number| bit(at, number)).sum());
        (string, self.told_routers(arguments, &counting, &ids, &held))
    }

    /// The BFR-ids that count.
    fn ids(&self, arguments: &Arguments, counting: &[Egressing]) -> BTreeSet<u32> {
        let all = || counting.iter().map(|egress| egress.id);
        let mut ids: BTreeSet<u32> = match () {
            _ if self.has(Fault::BIER_ONE_ID) => all().next_back().into_iter().collect(),
            _ if self.has(Fault::BIER_ID_TWICE_OUT) => {
                all().filter(|id| all().filter(|other| other == id).count() % 2 == 1).collect()
            }
            _ => all().collect(),
        };
        if let (true, Some(own)) = (self.has(Fault::BIER_OWN_ID_IN), self.egressing(&arguments.route)) {
            ids.insert(own.id);
        }
        ids
    }

    /// Whether the id of this position, in this set, is among these. The first set has 1 to 256 (RFC 8279, section 3).
    fn holds(&self, ids: &BTreeSet<u32>, set: u32, position: u32) -> bool {
        let first = POSITIONS * set;
        match () {
            _ if self.has(Fault::BIER_SET_BY_ID) => ids.contains(&(first + position % POSITIONS)),
            _ if self.has(Fault::BIER_POSITION_BY_ID) => ids.contains(&(first + position - 1)),
            _ if self.has(Fault::BIER_SET_FROM_ONE) => ids.contains(&(first + position).wrapping_sub(POSITIONS)),
            _ if self.has(Fault::BIER_SET_IGNORED) => {
                ids.iter().any(|id| (id + POSITIONS - position).is_multiple_of(POSITIONS))
            }
            _ if self.has(Fault::BIER_SET_OF_SEVEN_BITS) => {
                [set % 128, set % 128 + 128].iter().any(|set| ids.contains(&(POSITIONS * set + position)))
            }
            _ => ids.contains(&(first + position)),
        }
    }

    /// The position of a bit, counted from the lowest, of an octet of the string: 1 is the lowest of the last.
    fn position(&self, at: u32, bit: u32) -> u32 {
        let behind = STRING as u32 - 1 - at;
        match () {
            _ if self.has(Fault::BIER_BITS_FROM_FIRST) => 8 * at + bit + 1,
            _ if self.has(Fault::BIER_BITS_HIGH_FIRST) => 8 * behind + (7 - bit) + 1,
            _ if self.has(Fault::BIER_BITS_REVERSED) => 8 * at + (7 - bit) + 1,
            _ if self.has(Fault::BIER_WORDS_SWAPPED) => 8 * (8 * (at / 8) + 7 - at % 8) + bit + 1,
            _ => 8 * behind + bit + 1,
        }
    }

    /// How many egress routers are told: the positions held, one for each BFR-id.
    fn told_routers(
        &self,
        arguments: &Arguments,
        counting: &[Egressing],
        ids: &BTreeSet<u32>,
        held: &BTreeSet<u32>,
    ) -> u32 {
        let of_set = || counting.iter().filter(|egress| (egress.id - 1) / POSITIONS == arguments.packet.set.into());
        let distinct = |field: fn(&Egressing) -> Vec<u8>| of_set().map(field).collect::<BTreeSet<_>>().len();
        let told = match () {
            _ if self.has(Fault::BIER_LEAVES_TOLD) => of_set().count(),
            _ if self.has(Fault::BIER_ALL_SETS_TOLD) => ids.len(),
            _ if self.has(Fault::BIER_LISTED_TOLD) => arguments.leaves.len(),
            _ if self.has(Fault::BIER_ORIGINATORS_TOLD) => distinct(|egress| egress.originator.to_vec()),
            _ if self.has(Fault::BIER_PREFIXES_TOLD) => distinct(|egress| egress.prefix.to_vec()),
            _ if self.has(Fault::BIER_TOLD_LOW_OCTET) => held.len() % 256,
            _ => held.len(),
        };
        told as u32
    }

    /// The output with the string at its front.
    pub(super) fn written_string(&self, string: [u8; STRING], output: &[u8]) -> Vec<u8> {
        let start = if self.has(Fault::BIER_AT_END) { output.len() - STRING } else { 0 };
        if self.has(Fault::BIER_EMPTY_UNWRITTEN) && string == [0; STRING] {
            return output.to_vec();
        }
        let octet = |(at, before): (usize, &u8)| match at.checked_sub(start).and_then(|at| string.get(at)) {
            Some(octet) if self.has(Fault::BIER_OUTPUT_MERGED) => octet | before,
            Some(octet) => *octet,
            None if self.has(Fault::BIER_OUTPUT_CLEARED) => 0,
            None => *before,
        };
        output.iter().enumerate().map(octet).collect()
    }
}
