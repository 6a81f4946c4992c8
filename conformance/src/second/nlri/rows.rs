//! The body of each route type as a row of fields (RFC 6514, sections 4.1 to 4.6; RFC 7441, section 3; document
//! 01, "NLRI on the wire"; document 02, W-207).

use Field::{Distinguisher, Fec, Group, Key, Originator, Source, SourceAs};

#[derive(Clone, Copy, Debug, PartialEq, Eq)]
pub enum Field {
    Distinguisher,
    SourceAs,
    Source,
    Group,
    Originator,
    Key,
    Fec,
}

pub const S_PMSI: u8 = 3;
pub const LEAF: u8 = 4;
pub const SOURCE_ACTIVE: u8 = 5;
pub const MLDP_S_PMSI: u8 = 0x43;
pub const MLDP_LEAF: u8 = 0x44;
pub const MLDP_SOURCE_TREE_JOIN: u8 = 0x47;

const ROWS: [(u8, &[Field]); 10] = [
    (1, &[Distinguisher, Originator]),
    (2, &[Distinguisher, SourceAs]),
    (S_PMSI, &[Distinguisher, Source, Group, Originator]),
    (LEAF, &[Key, Originator]),
    (SOURCE_ACTIVE, &[Distinguisher, Source, Group]),
    (6, &[Distinguisher, SourceAs, Source, Group]),
    (7, &[Distinguisher, SourceAs, Source, Group]),
    (MLDP_S_PMSI, &[Distinguisher, Fec, Originator]),
    (MLDP_LEAF, &[Key, Originator]),
    (MLDP_SOURCE_TREE_JOIN, &[Distinguisher, SourceAs, Fec]),
];

pub fn row(route_type: u8) -> Option<&'static [Field]> {
    ROWS.iter().find(|(known, _)| *known == route_type).map(|(_, fields)| *fields)
}

/// The address family of customer sources and groups.
#[derive(Clone, Copy, Debug, PartialEq, Eq)]
pub enum Family {
    Ipv4,
    Ipv6,
}

impl Family {
    pub fn octets(self) -> usize {
        match self {
            Family::Ipv4 => 4,
            Family::Ipv6 => 16,
        }
    }

    pub fn bits(self) -> usize {
        self.octets() * 8
    }
}
