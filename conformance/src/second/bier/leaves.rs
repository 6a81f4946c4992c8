//! The Leaves of a BIER packet (document 02, W-211; RFC 8556, section 4.1): what is refused of one, and what it must be to count, as rows
//! that are tried in turn.

use super::packet::{Arguments, Route};
use crate::second::{
    attribute::forms::BIER,
    fault::Fault,
    nlri::rows::{Family, Field, LEAF, MLDP_LEAF},
    number::Number,
    Moved, Second,
};

/// The first thing for which a Leaf does not count, or that it does.
#[derive(Clone, Copy, Debug, PartialEq, Eq, PartialOrd, Ord)]
pub enum Standing {
    OtherKey,
    OtherTunnel,
    OtherSubDomain,
    NoId,
    Counts,
}

impl Standing {
    pub const ALL: [Standing; 5] =
        [Standing::OtherKey, Standing::OtherTunnel, Standing::OtherSubDomain, Standing::NoId, Standing::Counts];
}

/// What a Leaf that counts tells of its egress router.
pub(super) struct Egressing<'a> {
    pub id: u32,
    pub prefix: &'a [u8],
    pub originator: &'a [u8],
}

type LeafRefusal = fn(&Second, &Arguments, &Route) -> Option<Number>;

/// What is refused of a Leaf, in its order.
pub(super) const LEAF_REFUSALS: [LeafRefusal; 3] =
    [|_, _, leaf| leaf.nlri.as_ref().err().copied(), Second::no_leaf, Second::bad_leaf_attribute];

const LEAF_MOVED: [Moved; 2] =
    [(Fault::BIER_LEAF_ATTRIBUTE_FIRST, 2, 0), (Fault::BIER_LEAF_ATTRIBUTE_BEFORE_KIND, 2, 1)];

type Condition = fn(&Second, &Arguments, &Route) -> bool;

/// What a Leaf must be to count: where it stands if it is not, and the fault that does not ask it.
const CONDITIONS: [(Standing, Condition, Fault); 4] = [
    (Standing::OtherKey, Second::has_key, Fault::BIER_KEY_ANY),
    (Standing::OtherTunnel, |_, _, leaf| is_bier(leaf), Fault::BIER_TUNNEL_ANY),
    (Standing::OtherSubDomain, Second::has_sub_domain, Fault::BIER_SUB_DOMAIN_ANY),
    (Standing::NoId, Second::has_id, Fault::BIER_ID_ZERO_COUNTS),
];

impl Second {
    /// The first Leaf, in the order of the list, that a row refuses.
    pub(super) fn bad_leaf(&self, arguments: &Arguments) -> Option<Number> {
        let rows = self.ordered(LEAF_REFUSALS, &LEAF_MOVED);
        let first_pass = match () {
            _ if self.has(Fault::BIER_LEAF_KIND_LAST) => 1,
            _ if self.has(Fault::BIER_LEAF_NLRIS_FIRST) => 2,
            _ => rows.len(),
        };
        let judged: Vec<&Route> = match () {
            _ if self.has(Fault::BIER_LEAF_BAD_PASSED_OVER) => Vec::new(),
            _ if self.has(Fault::BIER_LEAF_FIRST_JUDGED) => arguments.leaves.iter().take(1).collect(),
            _ if self.has(Fault::BIER_LEAVES_BACKWARDS) => arguments.leaves.iter().rev().collect(),
            _ => arguments.leaves.iter().collect(),
        };
        let (first, second) = rows.split_at(first_pass);
        [first, second].iter().find_map(|pass| {
            judged.iter().find_map(|leaf| pass.iter().find_map(|refusal| refusal(self, arguments, leaf)))
        })
    }

    /// Well-formed, and not of type 4.
    fn no_leaf(&self, _: &Arguments, leaf: &Route) -> Option<Number> {
        match leaf.nlri.as_ref().ok()?.route_type {
            LEAF => None,
            MLDP_LEAF if self.has(Fault::BIER_LEAF_OF_MLDP) => None,
            _ if self.has(Fault::BIER_LEAF_OF_ANY_KIND) => None,
            _ => Some(Number::Kind),
        }
    }

    /// Attribute reading; what it says of the tunnel is not judged.
    fn bad_leaf_attribute(&self, arguments: &Arguments, leaf: &Route) -> Option<Number> {
        let attribute = match &leaf.attribute {
            Ok(attribute) => attribute,
            Err(_) if self.has(Fault::BIER_LEAF_OTHER_KEY_UNREAD) && !self.has_key(arguments, leaf) => return None,
            Err(number) => return Some(*number),
        };
        let is_bier = attribute.tunnel_type == BIER;
        match () {
            _ if self.has(Fault::BIER_LEAF_LABEL_JUDGED) && is_bier && attribute.label_field < 16 => {
                Some(Number::Label)
            }
            _ if self.has(Fault::BIER_LEAF_TUNNEL_JUDGED) && !is_bier => Some(Number::Tunnel),
            _ if self.has(Fault::BIER_LEAF_ID_JUDGED) && is_bier && attribute.identifier[1..3] == [0, 0] => {
                Some(Number::Ident)
            }
            _ => None,
        }
    }

    /// The first condition that does not hold.
    pub(super) fn standing(&self, arguments: &Arguments, leaf: &Route) -> Standing {
        let fails =
            |(_, holds, unasked): &&(Standing, Condition, Fault)| !self.has(*unasked) && !holds(self, arguments, leaf);
        CONDITIONS.iter().find(fails).map_or(Standing::Counts, |(standing, _, _)| *standing)
    }

    /// The key is the route's NLRI, octet by octet.
    fn has_key(&self, arguments: &Arguments, leaf: &Route) -> bool {
        let (Ok(leaf), Ok(route)) = (&leaf.nlri, &arguments.route.nlri) else { return false };
        let (key, nlri) = (leaf.octets(Field::Key), arguments.route.octets);
        let fields = |unasked: &[Field], covered: bool| {
            let family = if arguments.packet.afi == 1 { Family::Ipv4 } else { Family::Ipv6 };
            let Ok(key) = self.laid(family, key) else { return false };
            let same = |field| match route.octets(field) {
                [] if covered && matches!(field, Field::Source | Field::Group) => true,
                octets => octets == key.octets(field) || unasked.contains(&field),
            };
            key.route_type == route.route_type && route.parts.iter().all(|part| same(part.field))
        };
        match () {
            _ if self.has(Fault::BIER_KEY_WITHOUT_DISTINGUISHER) => fields(&[Field::Distinguisher], false),
            _ if self.has(Fault::BIER_KEY_WITHOUT_ORIGINATOR) => fields(&[Field::Originator], false),
            _ if self.has(Fault::BIER_KEY_COVERED) => fields(&[], true),
            _ if self.has(Fault::BIER_KEY_FRONT) && key.len() > 2 => {
                key[0] == nlri[0] && key[2..].iter().zip(&nlri[2..]).all(|(ours, other)| ours == other)
            }
            _ => key == nlri,
        }
    }

    fn has_sub_domain(&self, arguments: &Arguments, leaf: &Route) -> bool {
        match (sub_domain(&arguments.route), sub_domain(leaf)) {
            (Some(_), Some(0)) if self.has(Fault::BIER_SUB_DOMAIN_ZERO) => true,
            (Some(of_route), Some(of_leaf)) => of_route == of_leaf,
            _ => false,
        }
    }

    /// The BFR-id is not 0.
    fn has_id(&self, _: &Arguments, leaf: &Route) -> bool {
        let id = self.egressing(leaf).map(|egress| egress.id);
        id.is_some_and(|id| id > 0)
    }

    /// BFR-id, BFR-prefix and originator.
    pub(super) fn egressing<'a>(&self, leaf: &Route<'a>) -> Option<Egressing<'a>> {
        let (nlri, attribute) = (leaf.nlri.as_ref().ok()?, leaf.attribute.as_ref().ok()?);
        let [_, high, low, prefix @ ..] = attribute.identifier else { return None };
        let id = match () {
            _ if self.has(Fault::BIER_ID_LOW_OCTET) => [0, *low],
            _ if self.has(Fault::BIER_ID_LITTLE_ENDIAN) => [*low, *high],
            _ if self.has(Fault::BIER_ID_FROM_END) => *attribute.identifier.last_chunk::<6>()?.first_chunk()?,
            _ => [*high, *low],
        };
        let id = match u32::from(u16::from_be_bytes(id)) {
            0 if self.has(Fault::BIER_ID_ZERO_FIRST) => 1,
            // Behind the last position of the last set.
            0 if self.has(Fault::BIER_ID_ZERO_COUNTS) => 65_536,
            id => id,
        };
        Some(Egressing { id, prefix, originator: nlri.octets(Field::Originator) })
    }

    /// The Leaves that count.
    pub(super) fn counting_leaves<'a>(&self, arguments: &Arguments, leaves: &[Route<'a>]) -> Vec<Egressing<'a>> {
        let last = if self.has(Fault::BIER_LAST_LEAF_OUT) { leaves.len().saturating_sub(1) } else { leaves.len() };
        let counts = |leaf: &&Route| {
            self.standing(arguments, leaf) == Standing::Counts && !self.is_left_out(&arguments.route, leaf)
        };
        leaves[..last].iter().filter(counts).filter_map(|leaf| self.egressing(leaf)).collect()
    }

    /// The wrong answers of faults that ask more of a Leaf.
    fn is_left_out(&self, route: &Route, leaf: &Route) -> bool {
        let (Ok(of_route), Ok(of_leaf)) = (&route.attribute, &leaf.attribute) else { return true };
        let originator = |route: &Route| route.nlri.as_ref().ok().map(|nlri| nlri.octets(Field::Originator).to_vec());
        let other_size = of_route.identifier.len() != of_leaf.identifier.len();
        self.has(Fault::BIER_NO_LEAF_COUNTS)
            || self.has(Fault::BIER_PREFIX_OF_ROUTE_SIZE) && other_size
            || self.has(Fault::BIER_LABEL_COUNTS) && of_leaf.label_field < 16
            || self.has(Fault::BIER_LIR_ASKED) && of_route.flags & 1 == 0
            || self.has(Fault::BIER_OWN_LEAF_OUT) && originator(route) == originator(leaf)
    }
}

fn is_bier(route: &Route) -> bool {
    route.attribute.as_ref().is_ok_and(|attribute| attribute.tunnel_type == BIER)
}

/// The first octet of the identifier (RFC 8556, section 2).
fn sub_domain(route: &Route) -> Option<u8> {
    route.attribute.as_ref().ok()?.identifier.first().copied()
}
