//! The second decoder and encoder, written from RFC 6514, RFC 6625, RFC 7441, RFC 8556, RFC 8279, RFC 4607 and documents 01 and 02: tables of
//! rows that one routine interprets. A route table is a map of attributes by NLRI and a set of stale NLRIs, and its octets are the
//! image of both.

pub mod answers;
pub mod attribute;
pub mod bier;
pub mod fault;
pub mod groups;
pub mod lists;
pub mod matches;
pub mod nlri;
pub mod number;
pub mod plan;
pub mod runs;
pub mod table;
#[cfg(test)]
mod tests;

use fault::Fault;
use nlri::rows::Family;
use number::Number;

/// A fault that tries a row, by its place, at another place.
type Moved = (Fault, usize, usize);

/// The second decoder, with at most one wrong behaviour switched on.
#[derive(Clone, Copy, Debug, Default)]
pub struct Second {
    fault: Option<Fault>,
}

impl Second {
    /// The decoder as the RFCs and document 01 ask.
    pub fn sound() -> Self {
        Second { fault: None }
    }

    pub fn with_fault(fault: Fault) -> Self {
        Second { fault: Some(fault) }
    }

    fn has(&self, fault: Fault) -> bool {
        self.fault == Some(fault)
    }

    /// The decoder with the second of a pair of faults, where it has the first.
    fn with_one_of(&self, faults: &[(Fault, Fault)]) -> Second {
        let found = faults.iter().find(|(fault, _)| self.has(*fault));
        found.map_or(*self, |(_, fault)| Second::with_fault(*fault))
    }

    /// Rows in the order in which they are tried.
    fn ordered<Row, const ROWS: usize>(&self, mut rows: [Row; ROWS], moved: &[Moved]) -> [Row; ROWS] {
        for (_, from, to) in moved.iter().filter(|(fault, _, _)| self.has(*fault)) {
            match from < to {
                true => rows[*from..=*to].rotate_left(1),
                false => rows[*to..=*from].rotate_right(1),
            }
        }
        rows
    }

    /// AFI 1 or 2, the whole 16-bit number.
    fn family(&self, afi: u16) -> Result<Family, Number> {
        let afi = if self.has(Fault::AFI_LOW_OCTET) { afi & 0xFF } else { afi };
        match afi {
            1 => Ok(Family::Ipv4),
            2 => Ok(Family::Ipv6),
            _ => Err(Number::Family),
        }
    }

    /// The encoding, if the output has room for it. `most` is the largest encoding of its kind.
    fn fitted(&self, encoding: Vec<u8>, most: usize, room: usize) -> Result<Vec<u8>, Number> {
        let needed = if self.has(Fault::SPACE_AGAINST_MAXIMUM) { most } else { encoding.len() };
        if room < needed {
            Err(Number::Space)
        } else {
            Ok(encoding)
        }
    }
}
