//! Who must get a BIER packet (document 02, W-211; RFC 8556, section 4.1; RFC 8279, section 3). What the call refuses are rows, tried in
//! turn over arguments that were taken apart beforehand.

use super::{
    leaves::{Standing, LEAF_REFUSALS},
    string::STRING,
};
use crate::{
    ffi::Egress,
    hexadecimal::encode,
    second::{
        attribute::{forms::BIER, reading::Attribute},
        fault::Fault,
        lists::List,
        nlri::{reading::Reading, rows::S_PMSI},
        number::Number,
        Moved, Second,
    },
};
use std::fmt::{self, Debug, Formatter};

/// The most Leaves of a list.
pub const MOST_LEAVES: usize = 1_024;

/// What is asked: a route by its NLRI and its attribute, a Set Identifier, and the Leaves as they are lent.
#[derive(Clone, Copy, Debug, PartialEq, Eq)]
pub struct Packet<'a> {
    pub afi: u16,
    pub nlri: &'a [u8],
    pub attribute: &'a [u8],
    pub set: u8,
    pub leaves: &'a [u8],
}

/// What is answered, and the output afterwards.
#[derive(Clone, PartialEq, Eq)]
pub struct BitString {
    pub answer: Egress,
    pub output: Vec<u8>,
}

impl Debug for BitString {
    fn fmt(&self, formatter: &mut Formatter) -> fmt::Result {
        write!(formatter, "{:?}, output {}", self.answer, encode(&self.output))
    }
}

/// What a refusal blames.
#[derive(Clone, Copy, Debug, PartialEq, Eq, PartialOrd, Ord)]
pub enum Blamed {
    Route,
    List,
    Leaf,
    Output,
}

/// A route of either kind, its two parts read.
pub(super) struct Route<'a> {
    /// The octets of its NLRI, without those after it.
    pub octets: &'a [u8],
    pub nlri: Result<Reading<'a>, Number>,
    pub attribute: Result<Attribute<'a>, Number>,
}

/// The arguments of a call, taken apart.
pub(super) struct Arguments<'a> {
    pub packet: Packet<'a>,
    pub route: Route<'a>,
    list: List<'a, 2>,
    pub leaves: Vec<Route<'a>>,
    /// Octets of output.
    room: usize,
}

type Refusal = fn(&Second, &Arguments) -> Option<Number>;

/// What the call refuses, in its order.
const REFUSALS: [(Blamed, Refusal); 9] = [
    (Blamed::Route, |_, arguments| arguments.route.nlri.as_ref().err().copied()),
    (Blamed::Route, Second::other_kind),
    (Blamed::Route, |_, arguments| arguments.route.attribute.as_ref().err().copied()),
    (Blamed::Route, Second::without_label),
    (Blamed::Route, Second::other_tunnel),
    (Blamed::List, Second::too_many),
    (Blamed::List, Second::ends_early),
    (Blamed::Leaf, Second::bad_leaf),
    (Blamed::Output, Second::too_small),
];

const MOVED: [Moved; 13] = [
    (Fault::BIER_ATTRIBUTE_FIRST, 2, 0),
    (Fault::BIER_ATTRIBUTE_BEFORE_KIND, 2, 1),
    (Fault::BIER_LABEL_AFTER_LIST, 3, 6),
    (Fault::BIER_TUNNEL_AFTER_LONG, 4, 5),
    (Fault::BIER_TUNNEL_AFTER_LIST, 4, 6),
    (Fault::BIER_TUNNEL_LAST, 4, 8),
    (Fault::BIER_LONG_FIRST, 5, 0),
    (Fault::BIER_LONG_AFTER_SHORT, 5, 6),
    (Fault::BIER_LONG_AFTER_LEAVES, 5, 7),
    (Fault::BIER_SHORT_AFTER_LEAVES, 6, 7),
    (Fault::BIER_SPACE_FIRST, 8, 0),
    (Fault::BIER_SPACE_BEFORE_LIST, 8, 5),
    (Fault::BIER_SPACE_BEFORE_LEAVES, 8, 7),
];

impl Second {
    /// `output` is what it holds beforehand.
    pub fn answer_bier_string(&self, packet: Packet, output: &[u8]) -> BitString {
        let arguments = self.apart(packet, output.len());
        match self.first_refused(&arguments) {
            Some((blamed, number)) => self.refused_string(&arguments, blamed, number, output),
            None => {
                let (string, routers) = self.string(&arguments, &arguments.leaves);
                BitString { answer: Egress { number: 0, routers }, output: self.written_string(string, output) }
            }
        }
    }

    /// What is refused, and for what.
    pub fn bier_refusal(&self, packet: Packet, room: usize) -> Option<(Blamed, Number)> {
        self.first_refused(&self.apart(packet, room))
    }

    /// Of each Leaf of a call that is not refused: whether it counts and why not, its BFR-id, and the octets of its BFR-prefix.
    pub fn standings(&self, packet: Packet) -> Vec<(Standing, u32, usize)> {
        let arguments = self.apart(packet, STRING);
        let told = |leaf: &Route| {
            let (id, prefix) = self.egressing(leaf).map_or((0, 0), |egress| (egress.id, egress.prefix.len()));
            (self.standing(&arguments, leaf), id, prefix)
        };
        arguments.leaves.iter().map(told).collect()
    }

    fn apart<'a>(&self, packet: Packet<'a>, room: usize) -> Arguments<'a> {
        let low_octet = (Fault::BIER_AFI_LOW_OCTET, Fault::AFI_LOW_OCTET);
        let of_route = self.with_one_of(&[low_octet, (Fault::BIER_ROUTE_FOLLOWED, Fault::OCTETS_AFTER_IGNORED)]);
        let of_leaf = self.with_one_of(&[low_octet, (Fault::BIER_LEAF_FOLLOWED, Fault::OCTETS_AFTER_IGNORED)]);
        let of_list = self.with_one_of(&[
            (Fault::BIER_LIST_OF_NO_OCTETS, Fault::LIST_OF_NO_OCTETS),
            (Fault::BIER_LIST_COUNT_LOW_OCTET, Fault::LIST_COUNT_LOW_OCTET),
            (Fault::BIER_LIST_ENDS, Fault::LIST_ENDS_WITH_ITEMS),
        ]);
        let list = of_list.list(packet.leaves);
        let read = |nlri| match of_leaf.single(packet.afi, nlri) {
            Err(_) if self.has(Fault::BIER_LEAF_OF_OTHER_FAMILY) => of_leaf.single(3 - packet.afi.min(2), nlri),
            Err(Number::Group) if self.has(Fault::BIER_LEAF_DISCARD_AS_KIND) => Err(Number::Kind),
            read => read,
        };
        let leaf = |[nlri, attribute]: &[&'a [u8]; 2]| route(nlri, read(nlri), self.attribute(attribute));
        let leaves = list.items.iter().map(leaf).collect();
        let route = route(packet.nlri, of_route.single(packet.afi, packet.nlri), self.attribute(packet.attribute));
        Arguments { packet, route, list, leaves, room }
    }

    /// The first row that refuses.
    fn first_refused(&self, arguments: &Arguments) -> Option<(Blamed, Number)> {
        let rows = self.ordered(REFUSALS, &MOVED);
        rows.iter().find_map(|(blamed, refusal)| Some((*blamed, refusal(self, arguments)?)))
    }

    /// Well-formed, and not of type 3.
    fn other_kind(&self, arguments: &Arguments) -> Option<Number> {
        let route_type = arguments.route.nlri.as_ref().ok()?.route_type;
        let taken = match route_type {
            S_PMSI => true,
            1 | 2 => self.has(Fault::BIER_ROUTE_AS_KEYS) || self.has(Fault::BIER_ROUTE_OF_ANY_KIND),
            _ => self.has(Fault::BIER_ROUTE_OF_ANY_KIND),
        };
        (!taken).then_some(Number::Kind)
    }

    /// BIER with label 0.
    fn without_label(&self, arguments: &Arguments) -> Option<Number> {
        let attribute = arguments.route.attribute.as_ref().ok()?;
        let least = if self.has(Fault::BIER_LABEL_BY_FIELD) { 1 } else { 16 };
        let judged = attribute.tunnel_type == BIER || self.has(Fault::BIER_LABEL_OF_ANY_TUNNEL);
        (judged && attribute.label_field < least && !self.has(Fault::BIER_LABEL_UNJUDGED)).then_some(Number::Label)
    }

    /// Not BIER.
    fn other_tunnel(&self, arguments: &Arguments) -> Option<Number> {
        match arguments.route.attribute.as_ref().ok()?.tunnel_type {
            BIER => None,
            _ if self.has(Fault::BIER_TUNNEL_UNJUDGED) => None,
            0 if self.has(Fault::BIER_TUNNEL_NONE_EMPTY) => None,
            _ if self.has(Fault::BIER_TUNNEL_AS_IDENT) => Some(Number::Ident),
            _ => Some(Number::Tunnel),
        }
    }

    /// A count over the limit.
    fn too_many(&self, arguments: &Arguments) -> Option<Number> {
        let most = match () {
            _ if self.has(Fault::BIER_LEAVES_1023) => MOST_LEAVES - 1,
            _ if self.has(Fault::BIER_LEAVES_1025) => MOST_LEAVES + 1,
            _ if self.has(Fault::BIER_LEAVES_ANY) => usize::MAX,
            _ => MOST_LEAVES,
        };
        let count = match self.has(Fault::BIER_LONG_BY_COUNTING) {
            true => self.counting_leaves(arguments, &arguments.leaves).len(),
            false => arguments.list.count,
        };
        (count > most).then_some(Number::Long)
    }

    fn ends_early(&self, arguments: &Arguments) -> Option<Number> {
        (!arguments.list.whole && !self.has(Fault::BIER_LIST_CUT_TAKEN)).then_some(Number::Short)
    }

    /// An output of fewer octets than a string has.
    fn too_small(&self, arguments: &Arguments) -> Option<Number> {
        let refused = match arguments.room {
            31 if self.has(Fault::BIER_SPACE_31) => false,
            32 if self.has(Fault::BIER_SPACE_33) => true,
            33.. if self.has(Fault::BIER_SPACE_EXACT) => true,
            room if self.has(Fault::BIER_SPACE_WHERE_COUNTED) => {
                room < STRING && self.string(arguments, &arguments.leaves).1 > 0
            }
            room => room < STRING,
        };
        refused.then_some(Number::Space)
    }

    /// A refusal tells its number alone, and leaves the output as it is.
    fn refused_string(&self, arguments: &Arguments, blamed: Blamed, number: Number, output: &[u8]) -> BitString {
        let refuses = |leaf: &Route| LEAF_REFUSALS.iter().any(|refusal| refusal(self, arguments, leaf).is_some());
        let good = arguments.leaves.iter().position(refuses).unwrap_or(arguments.leaves.len());
        let (string, routers) = match blamed {
            Blamed::Leaf | Blamed::Output => self.string(arguments, &arguments.leaves[..good]),
            Blamed::Route | Blamed::List => ([0; STRING], 0),
        };
        let of_leaf = blamed == Blamed::Leaf && output.len() >= STRING;
        let output = match () {
            _ if of_leaf && self.has(Fault::BIER_REFUSAL_WRITES) => self.written_string(string, output),
            _ if of_leaf && self.has(Fault::BIER_REFUSAL_CLEARS) => self.written_string([0; STRING], output),
            _ => output.to_vec(),
        };
        let told = blamed == Blamed::Output && self.has(Fault::BIER_REFUSAL_TELLS);
        BitString { answer: Egress { number: number.value(), routers: if told { routers } else { 0 } }, output }
    }
}

fn route<'a>(
    octets: &'a [u8],
    nlri: Result<Reading<'a>, Number>,
    attribute: Result<Attribute<'a>, Number>,
) -> Route<'a> {
    let after = nlri.as_ref().map_or(0, |nlri| nlri.after.len());
    Route { octets: &octets[..octets.len() - after], nlri, attribute }
}
