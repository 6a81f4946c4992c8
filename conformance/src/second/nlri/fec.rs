//! An mLDP FEC element in an NLRI, with those inside its opaque value (RFC 7441, section 3; RFC 6512; document 02, W-207): a
//! stack of the fields to come, and one loop that takes the top one off.

use super::rows::Family;
use crate::second::{fault::Fault, number::Number, Second};

/// The fields of a FEC element and of an opaque value that holds one, in the order of the octets.
#[derive(Clone, Copy, Debug, PartialEq, Eq)]
enum Field {
    FecType,
    RootFamily,
    AddressLength,
    Root,
    OpaqueLength,
    /// No octets of its own: what it opens with says what comes.
    OpaqueValue,
    OpaqueType,
    /// The length in an opaque value, up to its end.
    HeldLength,
    Distinguisher,
}

use Field::{
    AddressLength, Distinguisher, FecType, HeldLength, OpaqueLength, OpaqueType, OpaqueValue, Root, RootFamily,
};

const ELEMENT: &[Field] = &[FecType, RootFamily, AddressLength, Root, OpaqueLength, OpaqueValue];

/// What stands before the element in an opaque value of type 7, and of type 8.
const RECURSIVE: &[Field] = &[OpaqueType, HeldLength];
const VPN_RECURSIVE: &[Field] = &[OpaqueType, HeldLength, Distinguisher];

/// The most elements, one inside the other.
const DEEPEST: usize = 4;

/// Where an outermost element stands.
#[derive(Clone, Copy, Debug, PartialEq, Eq)]
pub enum Outermost {
    /// At the front of what is left of a body.
    InBody,
    /// Alone in the octets that a writer is lent.
    Alone,
}

/// A FEC element that was read: its octets, and the elements one inside the other.
#[derive(Clone, Copy, Debug, PartialEq, Eq)]
pub struct Nest {
    pub size: usize,
    pub depth: usize,
}

/// What is known at a place of the octets.
struct Place<'a> {
    second: &'a Second,
    outermost: Outermost,
    afi: Family,
    octets: &'a [u8],
    at: usize,
    /// The end of all that is open.
    end: usize,
    /// The number where the octets run out: another one once the outermost opaque value is open.
    short: Number,
    /// Elements begun.
    depth: usize,
    /// Of the element begun last.
    fec_type: u8,
    family: u16,
    address_length: usize,
    to_come: Vec<Field>,
}

impl Second {
    /// LENGTH where the octets end inside the outermost element, IDENT where an element is bad, DEEP where the fourth holds
    /// another: the first from left to right.
    pub fn nest(&self, afi: Family, outermost: Outermost, octets: &[u8]) -> Result<Nest, Number> {
        let short = match outermost {
            Outermost::InBody if !self.has(Fault::FEC_SHORT_IDENT) => Number::Length,
            _ => Number::Ident,
        };
        let mut place = Place {
            second: self,
            outermost,
            afi,
            octets,
            at: 0,
            end: octets.len(),
            short,
            depth: 0,
            fec_type: 0,
            family: 0,
            address_length: 0,
            to_come: Vec::new(),
        };
        place.comes(ELEMENT);
        while let Some(field) = place.to_come.pop() {
            place.take(field)?;
        }
        if place.depth > DEEPEST && self.has(Fault::DEPTH_FROM_INSIDE) {
            return Err(Number::Deep);
        }
        Ok(Nest { size: place.at, depth: place.depth })
    }
}

impl Place<'_> {
    fn has(&self, fault: Fault) -> bool {
        self.second.has(fault)
    }

    fn comes(&mut self, fields: &[Field]) {
        self.to_come.extend(fields.iter().rev());
    }

    fn rest(&self) -> &[u8] {
        &self.octets[self.at..self.end]
    }

    /// Takes a field: the number for one that is not whole, IDENT for one that is wrong.
    fn take(&mut self, field: Field) -> Result<(), Number> {
        let size = match field {
            OpaqueValue => 0,
            FecType | AddressLength | OpaqueType => 1,
            RootFamily | OpaqueLength | HeldLength => 2,
            Distinguisher => 8,
            Root => self.address_length,
        };
        let octets = self.rest().get(..size).ok_or(self.short)?;
        let value = octets.iter().take(2).fold(0, |value, octet| value << 8 | u16::from(*octet));
        self.at += size;
        let good = match field {
            FecType => self.fec_type(value as u8),
            RootFamily => self.root_family(value),
            AddressLength => self.address_length(value)?,
            OpaqueLength if self.depth == 1 => self.outermost_length(value.into())?,
            OpaqueLength => self.ends(value.into(), Fault::INNER_NOT_FILLING),
            OpaqueValue => self.opaque_value()?,
            HeldLength => self.ends(value.into(), Fault::HELD_NOT_FILLING),
            OpaqueType | Root | Distinguisher => true,
        };
        match good {
            true => Ok(()),
            false => Err(Number::Ident),
        }
    }

    fn fec_type(&mut self, value: u8) -> bool {
        self.depth += 1;
        let tied = self.has(Fault::INNER_TYPE_TIED) && self.depth > 1 && value != self.fec_type;
        self.fec_type = value;
        matches!(value, 6..=8) && !tied
    }

    /// The AFI's in the outermost element, 1 or 2 in the others.
    fn root_family(&mut self, value: u16) -> bool {
        let afi = if self.afi == Family::Ipv4 { 1 } else { 2 };
        let value = if self.has(Fault::FEC_FAMILY_LOW_OCTET) { value & 0xFF } else { value };
        // The address families of several topologies, 29 and 30, are none of ours.
        let value = if self.has(Fault::FEC_MULTI_TOPOLOGY) && matches!(value, 29 | 30) { value - 28 } else { value };
        self.family = value;
        let tied = match self.depth {
            1 => !self.has(Fault::FEC_FAMILY_FREE),
            _ => self.has(Fault::INNER_FAMILY_TIED),
        };
        matches!(value, 1 | 2) && (value == afi || !tied)
    }

    fn address_length(&mut self, value: u16) -> Result<bool, Number> {
        self.address_length = value.into();
        let late = self.has(Fault::ROOT_BEFORE_ITS_LENGTH) && self.rest().len() < self.address_length;
        match matches!((self.family, value), (1, 4) | (2, 16)) {
            false if late => Err(self.short),
            good => Ok(good),
        }
    }

    /// The outermost opaque length, from which on all is inside an opaque value.
    fn outermost_length(&mut self, value: usize) -> Result<bool, Number> {
        let left = self.rest().len();
        let alone = self.outermost == Outermost::Alone && !self.has(Fault::FEC_TRAILING_ALLOWED);
        if value > left && !self.has(Fault::OPAQUE_LENGTH_CLAMPED) || alone && value < left {
            return Err(self.short);
        }
        self.end = self.end.min(self.at + value);
        self.short = if self.has(Fault::INNER_SHORT_LENGTH) { Number::Length } else { Number::Ident };
        Ok(true)
    }

    /// Whether a length inside an opaque value ends where that ends.
    fn ends(&mut self, value: usize, allowing_less: Fault) -> bool {
        let left = self.rest().len();
        if value < left && self.has(allowing_less) {
            self.end = self.at + value;
            return true;
        }
        value == left
    }

    /// Types 7 and 8 hold an element; other openings, or none, are kept as octets.
    fn opaque_value(&mut self) -> Result<bool, Number> {
        let opening = self.rest().first().copied().unwrap_or(0);
        let kept = match opening {
            7 => self.has(Fault::OPAQUE_UNREAD),
            8 => self.has(Fault::OPAQUE_UNREAD) || self.has(Fault::OPAQUE_8_KEPT),
            _ => true,
        };
        if kept || self.has(Fault::OPAQUE_CUT_KEPT) && !self.holds_length() {
            self.at = self.end;
            return Ok(true);
        }
        let deepest = match DEEPEST {
            _ if self.has(Fault::DEPTH_THREE) => 3,
            _ if self.has(Fault::DEPTH_FIVE) => 5,
            _ if self.has(Fault::DEPTH_UNCOUNTED) || self.has(Fault::DEPTH_FROM_INSIDE) => usize::MAX,
            deepest => deepest,
        };
        let unjudged = self.has(Fault::DEEP_WHERE_WHOLE) && !self.holds_length();
        if self.depth >= deepest && !unjudged {
            return match self.has(Fault::DEEP_AS_IDENT) {
                true => Err(Number::Ident),
                false => Err(Number::Deep),
            };
        }
        self.comes(ELEMENT);
        self.comes(match opening {
            8 if !self.has(Fault::OPAQUE_8_WITHOUT_RD) => VPN_RECURSIVE,
            _ => RECURSIVE,
        });
        Ok(true)
    }

    /// Whether the opaque value at this place has a length that ends where it ends.
    fn holds_length(&self) -> bool {
        match self.rest() {
            [_, high, low, held @ ..] => usize::from(u16::from_be_bytes([*high, *low])) == held.len(),
            _ => false,
        }
    }
}
