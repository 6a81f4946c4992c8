//! Reading one NLRI: its row of fields taken from the body, left to right, the first fault deciding; then what is discarded.

use super::{
    fec::Outermost,
    rows::{row, Family, Field, MLDP_LEAF, MLDP_SOURCE_TREE_JOIN, MLDP_S_PMSI, S_PMSI},
};
use crate::second::{fault::Fault, groups::class::Class, number::Number, Second};

/// A field and its octets. An address is given without its length octet, a key with its header.
#[derive(Clone, Debug, PartialEq, Eq)]
pub struct Part<'a> {
    pub field: Field,
    pub octets: &'a [u8],
}

#[derive(Clone, Debug, PartialEq, Eq)]
pub struct Reading<'a> {
    pub route_type: u8,
    pub length: u8,
    pub parts: Vec<Part<'a>>,
    /// What stands behind the NLRI.
    pub after: &'a [u8],
}

impl<'a> Reading<'a> {
    /// The octets of a field; none if the type lacks it.
    pub fn octets(&self, field: Field) -> &'a [u8] {
        self.parts.iter().find(|part| part.field == field).map_or(&[], |part| part.octets)
    }

    fn has_wildcard(&self) -> bool {
        let address = |part: &&Part| matches!(part.field, Field::Source | Field::Group);
        self.parts.iter().filter(address).any(|part| part.octets.is_empty())
    }
}

/// A field's octets and what remains of the body, or the fault.
type Taken<'a> = Result<(&'a [u8], &'a [u8]), Number>;

impl Second {
    /// Reads exactly one NLRI: FAMILY, SHORT, TYPE, the body, LENGTH for octets after it, then GROUP.
    pub fn single<'a>(&self, afi: u16, octets: &'a [u8]) -> Result<Reading<'a>, Number> {
        if self.has(Fault::FAMILY_AFTER_SHORT) && octets.len() < 2 {
            return Err(Number::Short);
        }
        self.whole(self.family(afi)?, octets)
    }

    fn whole<'a>(&self, family: Family, octets: &'a [u8]) -> Result<Reading<'a>, Number> {
        let reading = self.laid(family, octets).map_err(|number| self.unlaid(family, octets, number))?;
        let followed = !reading.after.is_empty() && !self.has(Fault::OCTETS_AFTER_IGNORED);
        match followed {
            true if self.has(Fault::DISCARD_BEFORE_OCTETS_AFTER) => self.kept(family, reading).and(Err(Number::Length)),
            true => Err(Number::Length),
            false if self.has(Fault::DISCARD_IN_RUNS) => Ok(reading),
            false => self.kept(family, reading),
        }
    }

    /// Reads the NLRI at the front of a run: it ends with its Length.
    pub fn front<'a>(&self, family: Family, octets: &'a [u8]) -> Result<Reading<'a>, Number> {
        let reading = self.laid(family, octets).map_err(|number| self.unlaid(family, octets, number))?;
        match self.has(Fault::DISCARD_SINGLE) {
            true => Ok(reading),
            false => self.kept(family, reading),
        }
    }

    /// The NLRI at the front of the octets as it is laid out, whatever its group.
    pub(in crate::second) fn laid<'a>(&self, family: Family, octets: &'a [u8]) -> Result<Reading<'a>, Number> {
        let [route_type, length, rest @ ..] = octets else {
            return Err(Number::Short);
        };
        if self.has(Fault::TYPE_BEFORE_SHORT) && row(*route_type).is_none() {
            return Err(Number::Type);
        }
        let (body, after) = rest.split_at_checked(usize::from(*length)).ok_or(Number::Short)?;
        let fields = self.row(*route_type).ok_or(Number::Type)?;
        let parts = self.parts(family, *route_type, fields, body)?;
        Ok(Reading { route_type: *route_type, length: *length, parts, after })
    }

    pub(in crate::second) fn row(&self, route_type: u8) -> Option<&'static [Field]> {
        match route_type {
            MLDP_LEAF if self.has(Fault::MLDP_LEAF_UNKNOWN) => None,
            0x46 if self.has(Fault::MLDP_SHARED_TREE) => row(MLDP_SOURCE_TREE_JOIN),
            0xC3 if self.has(Fault::MLDP_SIX_BITS) => row(MLDP_S_PMSI),
            _ => row(route_type),
        }
    }

    /// Splits a body into the fields of its row.
    fn parts<'a>(
        &self,
        family: Family,
        route_type: u8,
        fields: &[Field],
        body: &'a [u8],
    ) -> Result<Vec<Part<'a>>, Number> {
        let mut rest = body;
        let take = |field: &Field| {
            let (octets, left) = self.take(family, route_type, *field, rest)?;
            rest = left;
            Ok(Part { field: *field, octets })
        };
        let parts = fields.iter().map(take).collect::<Result<Vec<_>, _>>()?;
        if rest.is_empty() || self.has(Fault::LEFTOVER_IGNORED) {
            Ok(parts)
        } else {
            Err(Number::Length)
        }
    }

    fn take<'a>(&self, family: Family, route_type: u8, field: Field, rest: &'a [u8]) -> Taken<'a> {
        match field {
            Field::Distinguisher => rest.split_at_checked(8).ok_or(Number::Length),
            Field::SourceAs => rest.split_at_checked(4).ok_or(Number::Length),
            Field::Source | Field::Group => self.take_address(family, route_type, field, rest),
            Field::Originator => self.take_originator(family, rest),
            Field::Key => self.take_key(family, route_type, rest),
            Field::Fec => Ok(rest.split_at(self.nest(family, Outermost::InBody, rest)?.size)),
        }
    }

    /// A length octet in bits and that many bits. A bad length is WIDTH before its address is looked for.
    fn take_address<'a>(&self, family: Family, route_type: u8, field: Field, rest: &'a [u8]) -> Taken<'a> {
        let (bits, rest) = rest.split_first().ok_or(Number::Length)?;
        let bits = usize::from(*bits);
        if bits == family.bits() || bits == 0 && self.wildcard_allowed(route_type, field) {
            rest.split_at_checked(bits / 8).ok_or(Number::Length)
        } else if self.has(Fault::WIDTH_AFTER_ADDRESS) && rest.len() < bits.div_ceil(8) {
            Err(Number::Length)
        } else {
            Err(Number::Width)
        }
    }

    /// The wildcard is a length of 0, in type 3 only (RFC 6625, section 2).
    fn wildcard_allowed(&self, route_type: u8, field: Field) -> bool {
        match field {
            Field::Group if self.has(Fault::WILDCARD_GROUP_REFUSED) => false,
            _ => route_type == S_PMSI || self.has(Fault::WILDCARD_OUTSIDE_TYPE_3),
        }
    }

    /// What remains, 4 or 16 octets, whatever the family.
    fn take_originator<'a>(&self, family: Family, rest: &'a [u8]) -> Taken<'a> {
        let family_allows = !self.has(Fault::ORIGINATOR_TIED_TO_FAMILY) || rest.len() == family.octets();
        match rest.len() {
            4 | 16 if family_allows => Ok((rest, &[])),
            _ if self.has(Fault::ORIGINATOR_WIDTH_AT_READING) => Err(Number::Width),
            _ => Err(Number::Length),
        }
    }

    /// A whole NLRI of type 1, 2 or 3 (RFC 6514, section 4.4), or for mLDP of type 0x43 (RFC 7441, section 3); any fault inside
    /// it is KEY.
    fn take_key<'a>(&self, family: Family, leaf: u8, rest: &'a [u8]) -> Taken<'a> {
        let key = self.front(family, rest).map_err(|inner| match inner {
            Number::Group if self.has(Fault::DISCARD_INSIDE_KEY) => inner,
            _ if self.has(Fault::KEY_FAULT_INNER) => inner,
            _ => Number::Key,
        })?;
        let specific = || self.standard_class(family, key.octets(Field::Group)) == Ok(Class::Ssm);
        if !self.key_type_allowed(leaf, key.route_type)
            || self.has(Fault::WILDCARD_REFUSED_IN_KEY) && key.has_wildcard()
            || self.has(Fault::DISCARD_SSM_KEYS) && specific()
        {
            return Err(Number::Key);
        }
        Ok(rest.split_at(rest.len() - key.after.len()))
    }

    fn key_type_allowed(&self, leaf: u8, route_type: u8) -> bool {
        match (leaf, route_type) {
            (MLDP_LEAF, MLDP_S_PMSI) => true,
            (MLDP_LEAF, 1..=3) => self.has(Fault::MLDP_LEAF_ANY_KEY),
            (MLDP_LEAF, MLDP_SOURCE_TREE_JOIN) => self.has(Fault::MLDP_LEAF_OF_JOIN),
            (MLDP_LEAF, _) => false,
            (_, 1..=3) => true,
            (_, 4..=7) => self.has(Fault::KEY_TYPES_TO_SEVEN),
            (_, MLDP_S_PMSI) => self.has(Fault::LEAF_OF_MLDP),
            _ => false,
        }
    }

    /// True where the octets are exactly one NLRI that a Leaf of this type may carry as its key.
    pub(super) fn is_key(&self, family: Family, leaf: u8, octets: &[u8]) -> bool {
        let reading = match self.has(Fault::KEY_TRAILING_ALLOWED) {
            true => self.front(family, octets),
            false => self.whole(family, octets),
        };
        reading.is_ok_and(|key| self.key_type_allowed(leaf, key.route_type))
    }
}
