//! Routes kept in several tables (document 02, W-213; docs/PLANNING.md): (C-S,C-G) routes in small tables by a hash of originator, source
//! and group, the others in a table for each originator. Which table a route stands in, and which are asked.

use super::calls::TableCall;
use crate::second::{fault::Fault, matches::choice::Choice, nlri::rows::Field, number::Number, Second};

/// One of the tables.
#[derive(Clone, Debug, PartialEq, Eq, PartialOrd, Ord)]
pub enum Part {
    /// A small table, by its number.
    Small(usize),
    /// The table of an originator's wildcards.
    Wildcards(Vec<u8>),
}

/// A number under `count` that the octets decide (FNV-1a).
pub fn hash(fields: &[&[u8]], count: usize) -> usize {
    let octets = fields.iter().copied().flatten();
    let mixed = octets
        .fold(0xCBF2_9CE4_8422_2325_u64, |mixed, octet| (mixed ^ u64::from(*octet)).wrapping_mul(0x0100_0000_01B3));
    (mixed % count as u64) as usize
}

impl Second {
    /// The table in which a route stands, where there are so many small ones. The number is that of NLRI reading.
    pub fn part_of(&self, afi: u16, nlri: &[u8], count: usize) -> Result<Part, Number> {
        let reading = self.s_pmsi(afi, nlri)?;
        let [router, source, group] = [Field::Originator, Field::Source, Field::Group].map(|it| reading.octets(it));
        let distinguisher = reading.octets(Field::Distinguisher);
        let small = match (source, group) {
            ([], _) => false,
            (_, []) => self.has(Fault::SPLIT_SOURCES_SMALL),
            _ => true,
        };
        Ok(match () {
            _ if !small => Part::Wildcards(router.to_vec()),
            _ if self.has(Fault::SPLIT_WITHOUT_ROUTER) => Part::Small(hash(&[source, group], count)),
            _ if self.has(Fault::SPLIT_WITHOUT_SOURCE) => Part::Small(hash(&[router, group], count)),
            _ if self.has(Fault::SPLIT_WITHOUT_GROUP) => Part::Small(hash(&[router, source], count)),
            _ if self.has(Fault::SPLIT_BY_NLRI) => Part::Small(hash(&[distinguisher, router, source, group], count)),
            _ => Part::Small(hash(&[router, source, group], count)),
        })
    }

    /// The tables that a match is asked of, in turn.
    pub fn parts_asked(&self, call: &TableCall, count: usize) -> Vec<Part> {
        let (router, mut parts) = match *call {
            TableCall::Match { flow, .. } | TableCall::Explain { flow, .. } => {
                (flow.router, vec![Part::Small(hash(&[flow.router, flow.source, flow.group], count))])
            }
            TableCall::MatchShared { reception, .. } if self.has(Fault::SPLIT_TREES_SMALL) => {
                return vec![Part::Small(hash(&[reception.router, &[], reception.group], count))];
            }
            TableCall::MatchShared { reception, .. } => (reception.router, Vec::new()),
            _ => return Vec::new(),
        };
        parts.push(Part::Wildcards(router.to_vec()));
        match () {
            _ if self.has(Fault::SPLIT_WILDCARDS_FIRST) => parts.reverse(),
            _ if self.has(Fault::SPLIT_FIRST_ONLY) => parts.truncate(1),
            _ if self.has(Fault::SPLIT_LAST_ONLY) => drop(parts.drain(..parts.len() - 1)),
            _ => {}
        }
        parts
    }

    /// Whether an answer is that of all tables, so that no other is asked: it is a (C-S,C-G) route.
    pub fn ends_asking(&self, route: Option<Choice>) -> bool {
        match () {
            _ if self.has(Fault::SPLIT_FIRST_ANY_TIER) => route.is_some(),
            _ if self.has(Fault::SPLIT_WILDCARDS_FIRST) => route.is_some(),
            _ => route.is_some_and(|route| route.tier == 1),
        }
    }

    /// Whether a router's mark or sweep is made on this table.
    pub fn restarts(&self, part: &Part, router: &[u8]) -> bool {
        match part {
            Part::Small(_) => !self.has(Fault::SPLIT_RESTART_WILDCARDS),
            Part::Wildcards(of) => of == router,
        }
    }
}
