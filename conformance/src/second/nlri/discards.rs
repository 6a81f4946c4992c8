//! Source Active routes for source-specific groups, which are discarded (RFC 6514, by document 02, W-210; RFC 4607): GROUP, by
//! the standard range alone.

use super::{
    reading::Reading,
    rows::{row, Family, Field, SOURCE_ACTIVE, S_PMSI},
};
use crate::{
    ffi::Nlri,
    second::{
        fault::Fault,
        groups::{class::Class, prefixes::Prefix},
        number::Number,
        Second,
    },
};

/// Faults that are wrong about one group alone, at an end of a range or beside it.
const ENDS: [(Fault, Family, u128); 12] = [
    (Fault::DISCARD_BEFORE_232, Family::Ipv4, 0xE7FF_FFFF),
    (Fault::DISCARD_NOT_FIRST_OF_232, Family::Ipv4, 0xE800_0000),
    (Fault::DISCARD_NOT_LAST_OF_232, Family::Ipv4, 0xE8FF_FFFF),
    (Fault::DISCARD_BEHIND_232, Family::Ipv4, 0xE900_0000),
    (Fault::DISCARD_BEFORE_FF30, Family::Ipv6, 0xFF2F_FFFF_FFFF_FFFF_FFFF_FFFF_FFFF_FFFF),
    (Fault::DISCARD_NOT_FIRST_OF_FF30, Family::Ipv6, 0xFF30 << 112),
    (Fault::DISCARD_NOT_LAST_OF_FF30, Family::Ipv6, 0xFF30_0000_FFFF_FFFF_FFFF_FFFF_FFFF_FFFF),
    (Fault::DISCARD_BEHIND_FF30, Family::Ipv6, 0xFF30_0001 << 96),
    (Fault::DISCARD_NOT_FIRST_OF_FF3F, Family::Ipv6, 0xFF3F << 112),
    (Fault::DISCARD_NOT_LAST_OF_FF3F, Family::Ipv6, 0xFF3F_0000_FFFF_FFFF_FFFF_FFFF_FFFF_FFFF),
    (Fault::DISCARD_BEHIND_FF3F, Family::Ipv6, 0xFF3F_0001 << 96),
    (Fault::DISCARD_FROM_FF40, Family::Ipv6, 0xFF40 << 112),
];

/// Route types, each with the faults by which it is discarded for an SSM group too: when it is read, and when it is written.
const OTHER_TYPES: [(u8, [Fault; 2]); 3] = [
    (S_PMSI, [Fault::DISCARD_TYPE_3, Fault::DISCARD_WRITTEN_TYPE_3]),
    (6, [Fault::DISCARD_TYPE_6, Fault::DISCARD_WRITTEN_TYPE_6]),
    (7, [Fault::DISCARD_TYPE_7, Fault::DISCARD_WRITTEN_TYPE_7]),
];

impl Second {
    /// What is laid out, unless it is discarded.
    pub(in crate::second) fn kept<'a>(&self, family: Family, reading: Reading<'a>) -> Result<Reading<'a>, Number> {
        let asked = if self.has(Fault::DISCARD_BY_SOURCE) { Field::Source } else { Field::Group };
        let other = OTHER_TYPES.iter().any(|(known, [read, _])| *known == reading.route_type && self.has(*read));
        let active = reading.route_type == SOURCE_ACTIVE && !self.has(Fault::DISCARD_AT_WRITING);
        match (active || other) && self.is_discarded_group(family, reading.octets(asked)) {
            true => Err(self.discarded()),
            false => Ok(reading),
        }
    }

    /// Whether writing refuses these fields with GROUP, as far as the group is concerned.
    pub(super) fn is_unwritten(&self, family: Family, nlri: &Nlri) -> bool {
        let other = OTHER_TYPES.iter().any(|(known, [_, written])| *known == nlri.route_type && self.has(*written));
        let lacks = row(nlri.route_type).is_some_and(|fields| !fields.contains(&Field::Group));
        let active = nlri.route_type == SOURCE_ACTIVE && !self.has(Fault::DISCARD_AT_READING);
        let judged = active || other || lacks && self.has(Fault::DISCARD_LACKING_GROUP);
        let wildcard = nlri.group.size == 0 && nlri.route_type == S_PMSI;
        judged && !wildcard && self.is_discarded_group(family, &nlri.group.octets[..family.octets()])
    }

    /// Whether a Source Active route for this group is discarded.
    fn is_discarded_group(&self, family: Family, group: &[u8]) -> bool {
        let number = group.iter().fold(0, |number, octet| number << 8 | u128::from(*octet));
        let wrong = ENDS.iter().any(|(fault, of, end)| self.has(*fault) && (*of, *end) == (family, number));
        let discarded = match self.standard_class(family, group) {
            _ if self.has(Fault::DISCARD_NEVER) => false,
            Ok(Class::Ssm) => !self.has(Fault::DISCARD_ASM_ALONE),
            Ok(Class::Asm) => self.has(Fault::DISCARD_ASM) || self.has(Fault::DISCARD_ASM_ALONE),
            Err(_) => self.has(Fault::DISCARD_NO_GROUP) && !group.is_empty(),
        };
        discarded != wrong
    }

    /// The number of what is discarded.
    fn discarded(&self) -> Number {
        match () {
            _ if self.has(Fault::DISCARD_AS_TYPE) => Number::Type,
            _ if self.has(Fault::DISCARD_AS_FLOW) => Number::Flow,
            _ => Number::Group,
        }
    }

    /// The refusal of what cannot be laid out: this number, but for the faults that find GROUP before it. A group that ends early is
    /// taken as far as it goes.
    pub(super) fn unlaid(&self, family: Family, octets: &[u8], number: Number) -> Number {
        let [SOURCE_ACTIVE, length, rest @ ..] = octets else { return number };
        let size = family.octets();
        let body = &rest[..rest.len().min((*length).into())];
        let behind = body.get(10 + size..).unwrap_or(&[]);
        let mut group = [&behind[..behind.len().min(size)], &[0; 16]].concat();
        group.truncate(size);
        let fault = match number {
            Number::Short => Fault::DISCARD_BEFORE_SHORT,
            Number::Width if usize::from(body[8]) != family.bits() => Fault::DISCARD_BEFORE_SOURCE_WIDTH,
            Number::Width => Fault::DISCARD_BEFORE_GROUP_WIDTH,
            _ if behind.len() > size => Fault::DISCARD_BEFORE_LEFTOVER,
            _ => Fault::DISCARD_BEFORE_CUT,
        };
        match self.has(fault) && self.is_discarded_group(family, &group) || self.is_of_other_family(family, octets) {
            true => Number::Group,
            false => number,
        }
    }

    /// Where `DISCARD_OF_OTHER_FAMILY` takes octets for an NLRI of the other family.
    fn is_of_other_family(&self, family: Family, octets: &[u8]) -> bool {
        let other = if family == Family::Ipv4 { Family::Ipv6 } else { Family::Ipv4 };
        let discards = || self.laid(other, octets).is_ok_and(|reading| self.kept(other, reading).is_err());
        self.has(Fault::DISCARD_OF_OTHER_FAMILY) && discards()
    }

    /// Reading of a Source Active route that a list has: the PE and the group that are asked about, and the prefixes, change nothing.
    pub(in crate::second) fn listed_route<'a>(
        &self,
        afi: u16,
        nlri: &'a [u8],
        asked: Asked,
    ) -> Result<Reading<'a>, Number> {
        let reading = self.single(afi, nlri);
        if self.fault.is_none() {
            return reading;
        }
        let others = Second::with_fault(Fault::DISCARD_NEVER).single(afi, nlri);
        let group = others.as_ref().map_or(&[][..], |reading| reading.octets(Field::Group));
        let class = self.class_among(asked.prefixes, self.family(afi)?, group);
        let discarded = reading == Err(Number::Group);
        match () {
            _ if discarded && self.has(Fault::DISCARD_NEVER_IN_LISTS) => others,
            _ if discarded && self.has(Fault::DISCARD_LISTED_OF_PE) && !asked.of_pe => others,
            _ if discarded && self.has(Fault::DISCARD_LISTED_FOR_GROUP) && group != asked.group => others,
            _ if discarded && self.has(Fault::DISCARD_LISTED_AS_KIND) => Err(Number::Kind),
            _ if self.has(Fault::DISCARD_BY_PREFIXES) => match others {
                Ok(other) if other.route_type == SOURCE_ACTIVE && class == Ok(Class::Ssm) => Err(Number::Group),
                others => others,
            },
            _ => reading,
        }
    }

    /// The decoder of the reader of pieces, and that of the listing: some faults are in one of these alone.
    pub(in crate::second) fn in_pieces(&self) -> Second {
        self.with_one_of(&[
            (Fault::DISCARD_STOPS_PIECES, Fault::DISCARD_STOPS),
            (Fault::DISCARD_OLD_PIECES, Fault::DISCARD_IN_OLD),
            (Fault::DISCARD_PIECES_UNCOUNTED, Fault::DISCARD_UNCOUNTED),
            (Fault::DISCARD_READ_IN_PIECES, Fault::DISCARD_NEVER),
        ])
    }

    pub(in crate::second) fn in_listing(&self) -> Second {
        self.with_one_of(&[
            (Fault::DISCARD_STOPS_LISTING, Fault::DISCARD_STOPS),
            (Fault::DISCARD_OLD_LISTING, Fault::DISCARD_IN_OLD),
            (Fault::DISCARD_READ_IN_LISTING, Fault::DISCARD_NEVER),
        ])
    }
}

/// What a match for a shared tree asks about, as far as some faults look at it when they read its list.
pub(in crate::second) struct Asked<'a> {
    pub prefixes: &'a [Prefix],
    pub group: &'a [u8],
    pub of_pe: bool,
}
