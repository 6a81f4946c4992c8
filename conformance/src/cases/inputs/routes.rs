//! S-PMSI A-D routes and flows over few addresses, so that they meet, and arguments that install and match refuse.

use super::{
    lists::EMPTY,
    samples::{attributes, discarded, mldp, nlris},
};
use crate::{
    hexadecimal::octets,
    random::Random,
    second::{
        matches::choice::Flow,
        table::memory::{Routes, Table},
        Second,
    },
};

/// Addresses at which the rules turn, for one family.
#[derive(Clone)]
pub struct Addresses {
    pub afi: u16,
    pub distinguishers: Vec<Vec<u8>>,
    pub sources: Vec<Vec<u8>>,
    pub groups: Vec<Vec<u8>>,
    pub routers: Vec<Vec<u8>>,
    /// Lists of prefixes, none of them bad.
    pub prefixes: Vec<Vec<u8>>,
}

/// Distinguishers that differ in their first, their last or their highest bit.
const DISTINGUISHERS: [&str; 7] = [
    "0000000000000000",
    "0000006400000007",
    "0000006400000008",
    "0001C00002010001",
    "0100000000000000",
    "8000000000000000",
    "FFFFFFFFFFFFFFFF",
];

/// 10.0.0.1 and 10.0.0.2; 16 octets that begin with the first; the first mapped into IPv6; a common IPv6 router.
const ROUTERS: [&str; 5] = [
    "0A000001",
    "0A000002",
    "0A000001000000000000000000000000",
    "00000000000000000000FFFF0A000001",
    "20010DB8000000000000000000000001",
];

/// The address of zeros is not the wildcard.
const SOURCES: [[&str; 3]; 2] = [
    ["C0000201", "C0000202", "00000000"],
    ["20010DB8000000000000000000000001", "20010DB8000000000000000000000002", "00000000000000000000000000000000"],
];

/// Two SSM groups, two ASM groups, and an address that is no group (an NLRI may carry it, a flow may not).
const GROUPS: [[&str; 5]; 2] = [
    ["E8010101", "E8FFFFFF", "EF010101", "E7010101", "0A010101"],
    [
        "FF3E0000000000000000000000000001",
        "FF30000000000000FFFFFFFFFFFFFFFF",
        "FF3E0001000000000000000000000001",
        "FF0E0000000000000000000000000001",
        "FE300000000000000000000000000001",
    ],
];

/// Lists of prefixes by which the first, the second, the third, all and none of the groups are SSM, and one of eight whose last
/// holds the fourth.
const PREFIXES: [[&str; 6]; 2] = [
    [
        "0001 0005 10 E8010000",
        "0001 0005 20 E8FFFFFF",
        "0001 0005 08 EF000000",
        "0001 0005 00 00000000",
        "0001 0005 08 0A000000",
        "0008 0005 20E8020202 0005 18E8030300 0005 10E8040000 0005 20E8050505 0005 09EA800000 0005 14EB001000
         0005 20EF010102 0005 08E7000000",
    ],
    [
        "0001 0011 40 FF3E0000000000000000000000000000",
        "0001 0011 80 FF30000000000000FFFFFFFFFFFFFFFF",
        "0001 0011 20 FF3E0001000000000000000000000000",
        "0001 0011 00 00000000000000000000000000000000",
        "0001 0011 10 FE300000000000000000000000000000",
        "0008 0011 40FF3E0000000000010000000000000000 0011 20FF320000000000000000000000000000
         0011 80FF3E0000000000000000000000000002 0011 30FF3E0000000200000000000000000000
         0011 1DFF350008000000000000000000000000 0011 7FFF3E0001000000000000000000000002
         0011 14FF3E1000000000000000000000000000 0011 10FF0E0000000000000000000000000000",
    ],
];

/// How many of the groups are SSM; they come first.
pub const SSM_GROUPS: usize = 2;

impl Addresses {
    pub fn of_family(afi: u16) -> Self {
        let family = usize::from(afi) - 1;
        let decoded = |texts: &[&str]| texts.iter().map(|text| octets(text)).collect();
        Addresses {
            afi,
            distinguishers: decoded(&DISTINGUISHERS),
            sources: decoded(&SOURCES[family]),
            groups: decoded(&GROUPS[family]),
            routers: decoded(&ROUTERS),
            prefixes: decoded(&PREFIXES[family]),
        }
    }

    /// The NLRI of a route; about a third of its addresses are wildcards.
    pub fn nlri(&self, random: &mut Random) -> Vec<u8> {
        let [source, group] = [&self.sources, &self.groups].map(|addresses| match random.once_in(3) {
            true => Vec::new(),
            false => picked(random, addresses).to_vec(),
        });
        s_pmsi(picked(random, &self.distinguishers), &source, &group, picked(random, &self.routers))
    }

    /// So many different NLRIs; distinguishers are drawn too where the addresses give too few.
    pub fn nlris(&self, random: &mut Random, count: usize) -> Vec<Vec<u8>> {
        let mut nlris: Vec<Vec<u8>> = Vec::new();
        while nlris.len() < count {
            let mut nlri = self.nlri(random);
            if count > 100 {
                nlri[2..4].copy_from_slice(&random.array::<2>());
            }
            if !nlris.contains(&nlri) {
                nlris.push(nlri);
            }
        }
        nlris
    }

    /// Half the flows have no prefixes.
    pub fn flow(&self, random: &mut Random) -> Flow<'_> {
        Flow {
            prefixes: if random.once_in(2) { EMPTY } else { picked(random, &self.prefixes) },
            router: picked(random, &self.routers),
            source: picked(random, &self.sources),
            group: picked(random, &self.groups),
        }
    }

    /// A table with so many places taken, about a quarter of them marked.
    pub fn table(&self, random: &mut Random, places: usize, count: usize) -> Table {
        let attributes = good_attributes();
        let routes = self.nlris(random, count).into_iter();
        let routes: Routes = routes.map(|nlri| (nlri, picked(random, &attributes).to_vec())).collect();
        let stale = routes.keys().filter(|_| random.once_in(4)).cloned().collect();
        Table { stale, ..Table::holding(self.afi, places, routes) }
    }
}

pub fn picked<'a>(random: &mut Random, choices: &'a [Vec<u8>]) -> &'a [u8] {
    &choices[random.below(choices.len())]
}

/// An S-PMSI A-D route's NLRI; an address of no octets is the wildcard (RFC 6625, section 2).
pub fn s_pmsi(distinguisher: &[u8], source: &[u8], group: &[u8], originator: &[u8]) -> Vec<u8> {
    let bits = |address: &[u8]| [address.len() as u8 * 8];
    let body = [distinguisher, &bits(source), source, &bits(group), group, originator].concat();
    [&[3, body.len() as u8], &body[..]].concat()
}

/// A Source Active A-D route's NLRI (RFC 6514, section 4.5).
pub fn source_active(distinguisher: &[u8], source: &[u8], group: &[u8]) -> Vec<u8> {
    let bits = |address: &[u8]| [address.len() as u8 * 8];
    let body = [distinguisher, &bits(source), source, &bits(group), group].concat();
    [&[5, body.len() as u8], &body[..]].concat()
}

/// Attributes that name no tunnel, with flags and label fields that are 0 or not: such a route is stored and takes no flow.
pub const NO_TUNNEL: [&str; 6] =
    ["00 00 000000", "01 00 000000", "00 00 00000F", "02 00 000010", "FF 00 FFFFFF", "03 00 0B0000"];

/// Attributes that install accepts, all different: every tunnel type, none of them BIER with label 0. About one in six names
/// no tunnel.
pub fn good_attributes() -> Vec<Vec<u8>> {
    let mut attributes = attributes();
    for (number, attribute) in attributes.iter_mut().enumerate() {
        attribute[0] = number as u8;
    }
    attributes.extend([octets("00 0B 000010 01 0002 0A000001"), octets("FF 06 000000 0A000001")]);
    attributes.extend(NO_TUNNEL.map(octets));
    attributes
}

/// Attributes that install refuses: SHORT, TUNNEL, IDENT, LONG, LABEL.
pub fn bad_attributes() -> Vec<Vec<u8>> {
    let texts = [
        "",
        "00 0B 0000",
        "00 08 000010",
        "00 0C 000010 01 0002 0A000001",
        "00 00 000010 00",
        "00 0B 000010 01 0002 0A0000",
        "00 02 000010 07 0001 04 0A000001 0000",
        "00 0B 00000F 01 0002 0A000001",
        "00 0B 000000 01 0002 0A000001",
    ];
    let long = [&octets("00 02 000010 06 0001 04 0A000001 0032")[..], &[0; 50]].concat();
    texts.iter().map(|text| octets(text)).chain([long]).collect()
}

/// NLRIs that install and withdraw refuse: SHORT, TYPE, LENGTH, WIDTH, KEY, IDENT, DEEP, GROUP; well-formed ones of every other type,
/// KIND.
pub fn bad_nlris(afi: u16) -> Vec<Vec<u8>> {
    let texts = [
        "",
        "03",
        "0905 00",
        "0900",
        "0300",
        "030D 0000006400000007 00 00 0A0000",
        "030E 0000006400000007 00 00 0A000001 00",
        "020C 0000006400000007 0000FDE8 00",
        "030E 0000006400000007 18 00 0A000001",
        "030E 0000006400000007 00 21 0A000001",
        "0404 0A000001",
        "0400",
        "4316 0000006400000007 05 0001 04 0A000001 0000 0A000001",
        "4309 0000006400000007 06",
        "470D 0000006400000007 0000FDE8 09",
        "4400",
    ];
    let deep = [4, 5].into_iter().flat_map(|depth| mldp(afi, depth)).map(|sample| sample.octets);
    let others = nlris(afi).into_iter().filter(|sample| sample.nlri.route_type != 3).map(|sample| sample.octets);
    let other_family = nlris(3 - afi).into_iter().map(|sample| sample.octets);
    let refused = other_family.filter(|nlri| Second::sound().answer_nlri_read(afi, nlri).number != 0);
    let discarded = discarded(afi).octets;
    let followed = [&discarded[..], &[0]].concat();
    let texts = texts.iter().map(|text| octets(text));
    texts.chain(deep).chain(others).chain(refused).chain([discarded, followed]).collect()
}
