//! Well-formed NLRIs and attributes of every type, laid out octet by octet and not through an encoder.

use crate::ffi::{Address, Nlri, RouteDistinguisher};

/// The AFIs that a call accepts, and some that it refuses.
pub const GOOD_AFIS: [u16; 2] = [1, 2];
pub const BAD_AFIS: [u16; 6] = [0, 3, 256, 257, 258, 65_535];

const DISTINGUISHER: [u8; 8] = [0, 1, 192, 0, 2, 9, 0x12, 0x34];
const SOURCE_AS: [u8; 4] = [0x89, 0xAB, 0xCD, 0xEF];
const IPV4: [u8; 4] = [192, 0, 2, 1];
const IPV6: [u8; 16] = [0x20, 1, 0x0D, 0xB8, 0, 1, 2, 3, 4, 5, 6, 7, 8, 9, 10, 11];

/// An NLRI as octets and as the fields that reading must give.
#[derive(Clone)]
pub struct Sample {
    pub afi: u16,
    pub octets: Vec<u8>,
    pub nlri: Nlri,
    pub key: Vec<u8>,
    pub fec: Vec<u8>,
}

impl Sample {
    fn new(afi: u16, route_type: u8) -> Self {
        let nlri = Nlri { route_type, ..Default::default() };
        Sample { afi, octets: vec![route_type, 0], nlri, key: Vec::new(), fec: Vec::new() }
    }

    fn push(mut self, octets: &[u8]) -> Self {
        self.octets.extend_from_slice(octets);
        self.octets[1] = (self.octets.len() - 2) as u8;
        self
    }

    fn distinguisher(mut self) -> Self {
        self.nlri.distinguisher = RouteDistinguisher { octets: DISTINGUISHER };
        self.push(&DISTINGUISHER)
    }

    fn source_as(mut self) -> Self {
        self.nlri.source_as = 0x89AB_CDEF;
        self.push(&SOURCE_AS)
    }

    fn source(mut self, octets: &[u8]) -> Self {
        self.nlri.source = address(octets);
        self.push(&[octets.len() as u8 * 8]).push(octets)
    }

    fn group(mut self, octets: &[u8]) -> Self {
        self.nlri.group = address(octets);
        self.push(&[octets.len() as u8 * 8]).push(octets)
    }

    fn originator(mut self, octets: &[u8]) -> Self {
        self.nlri.originator = address(octets);
        self.push(octets)
    }

    fn key(mut self, key: &[u8]) -> Self {
        self.key = key.to_vec();
        self.push(key)
    }

    fn fec(mut self, fec: &[u8]) -> Self {
        self.fec = fec.to_vec();
        self.push(fec)
    }
}

pub fn address(octets: &[u8]) -> Address {
    let mut padded = [0; 16];
    padded[..octets.len()].copy_from_slice(octets);
    Address { octets: padded, size: octets.len() as u8 }
}

/// A customer source and group of the family; the group is SSM.
fn customer(afi: u16) -> (Vec<u8>, Vec<u8>) {
    match afi {
        1 => (IPV4.to_vec(), vec![232, 1, 1, 1]),
        _ => (IPV6.to_vec(), [[0xFF, 0x3E, 0, 0], [0; 4], [0; 4], [9, 8, 7, 6]].concat()),
    }
}

/// An ASM group of the family.
fn any_source_group(afi: u16) -> Vec<u8> {
    match afi {
        1 => vec![239, 1, 1, 1],
        _ => [[0xFF, 0x1E, 0, 0], [0; 4], [0; 4], [9, 8, 7, 6]].concat(),
    }
}

fn originators() -> [Vec<u8>; 2] {
    [vec![10, 0, 0, 1], IPV6.iter().rev().copied().collect()]
}

/// Types 1, 2 and 3, each with every choice of wildcards and originator size: the NLRIs that a key may be.
fn keys(afi: u16) -> Vec<Sample> {
    let (source, group) = customer(afi);
    let wildcard = Vec::new();
    let pairs = [(&source, &group), (&source, &wildcard), (&wildcard, &group), (&wildcard, &wildcard)];
    let start = |route_type| Sample::new(afi, route_type).distinguisher();
    let mut samples = vec![start(2).source_as()];
    for originator in originators() {
        samples.push(start(1).originator(&originator));
        samples.extend(pairs.map(|(source, group)| start(3).source(source).group(group).originator(&originator)));
    }
    samples
}

/// Every route type of one family; each is read.
pub fn nlris(afi: u16) -> Vec<Sample> {
    let (source, group) = customer(afi);
    let keys = keys(afi);
    let leaves = keys
        .iter()
        .flat_map(|key| originators().map(|originator| Sample::new(afi, 4).key(&key.octets).originator(&originator)));
    let join = |route_type| with_addresses(afi, route_type, &source, &group);
    let active = with_addresses(afi, 5, &source, &any_source_group(afi));
    let with_fecs = mldp(afi, 1).into_iter().chain(mldp(afi, 2).into_iter().take(1));
    keys.iter().cloned().chain(leaves).chain([active, join(6), join(7)]).chain(with_fecs).collect()
}

/// Type 3, 5, 6 or 7 with these addresses.
pub fn with_addresses(afi: u16, route_type: u8, source: &[u8], group: &[u8]) -> Sample {
    let start = Sample::new(afi, route_type).distinguisher();
    match route_type {
        3 => start.source(source).group(group).originator(&originators()[0]),
        5 => start.source(source).group(group),
        _ => start.source_as().source(source).group(group),
    }
}

/// A Source Active route for an SSM group, which is discarded.
pub fn discarded(afi: u16) -> Sample {
    let (source, group) = customer(afi);
    with_addresses(afi, 5, &source, &group)
}

/// The route types of mLDP customers, with so many FEC elements one inside the other.
pub fn mldp(afi: u16, depth: usize) -> Vec<Sample> {
    let element = nested(afi, depth, &[1, 0, 4, 0x0A, 0x0B, 0x0C, 0x0D]);
    let join = Sample::new(afi, 0x47).distinguisher().source_as().fec(&element);
    let mut samples = vec![join];
    for originator in originators() {
        let s_pmsi = Sample::new(afi, 0x43).distinguisher().fec(&element).originator(&originator);
        samples.extend([Sample::new(afi, 0x44).key(&s_pmsi.octets).originator(&originator), s_pmsi]);
    }
    samples
}

/// So many FEC elements one inside the other, the innermost with these opaque octets: of every type, of both families, and
/// with distinguishers or not.
fn nested(afi: u16, depth: usize, innermost: &[u8]) -> Vec<u8> {
    let family = |level: usize| if level.is_multiple_of(2) { afi as u8 } else { 3 - afi as u8 };
    let mut element = fec(6 + (depth % 3) as u8, family(depth - 1), innermost);
    for level in (0..depth - 1).rev() {
        element = fec(6 + (level % 3) as u8, family(level), &holding(8 - (level % 2) as u8, &element));
    }
    element
}

/// An opaque value of type 7 or 8 that holds a FEC element (RFC 6512, sections 2.2 and 3.2).
pub fn holding(opaque_type: u8, element: &[u8]) -> Vec<u8> {
    let distinguisher = if opaque_type == 8 { &DISTINGUISHER[..] } else { &[] };
    let length = (distinguisher.len() + element.len()) as u16;
    [&[opaque_type], &length.to_be_bytes()[..], distinguisher, element].concat()
}

/// Every route type of both families.
pub fn all_nlris() -> Vec<Sample> {
    GOOD_AFIS.into_iter().flat_map(nlris).collect()
}

/// An mLDP FEC element (RFC 6388, section 2.2).
pub fn fec(fec_type: u8, family: u8, opaque: &[u8]) -> Vec<u8> {
    let root: &[u8] = if family == 1 { &IPV4 } else { &IPV6 };
    let length = (opaque.len() as u16).to_be_bytes();
    [&[fec_type, 0, family, root.len() as u8], root, &length, opaque].concat()
}

/// Each tunnel type with identifiers of every form it allows.
pub fn identifiers() -> Vec<(u8, Vec<u8>)> {
    let numbered = |size: u8| (1..=size).collect::<Vec<u8>>();
    let sized =
        [(0, 0), (1, 12), (3, 8), (3, 32), (4, 8), (4, 32), (5, 8), (5, 32), (6, 4), (6, 16), (11, 7), (11, 19)];
    let mut identifiers: Vec<_> = sized.map(|(tunnel_type, size)| (tunnel_type, numbered(size))).to_vec();
    for (tunnel_type, fec_type) in [(2, 6), (7, 7), (7, 8)] {
        // A root of 4 octets leaves 49 for the opaque value, one of 16 leaves 37.
        for (family, longest) in [(1, 49), (2, 37)] {
            let opaques = [0, 1, 7, longest].map(numbered);
            identifiers.extend(opaques.iter().map(|opaque| (tunnel_type, fec(fec_type, family, opaque))));
        }
    }
    identifiers
}

/// Well-formed attributes of every tunnel type.
pub fn attributes() -> Vec<Vec<u8>> {
    let attribute =
        |(tunnel_type, identifier): (u8, Vec<u8>)| [&[0x01, tunnel_type, 0x12, 0x34, 0x5F], &identifier[..]].concat();
    identifiers().into_iter().map(attribute).collect()
}
