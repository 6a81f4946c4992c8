//! The route that a customer flow takes (RFC 6625, sections 3.1 and 3.2; document 01, "Which route a flow takes"; RFC 8556,
//! section 4.1, and document 02, W-202 and W-209).

use crate::{
    hexadecimal::encode,
    second::{
        attribute::reading::Attribute,
        fault::Fault,
        groups::class::Class,
        nlri::{
            reading::Reading,
            rows::{Family, Field},
        },
        number::Number,
        table::memory::Route,
        Moved, Second,
    },
};
use std::fmt::{self, Debug, Formatter};

/// A router asked about and a flow (C-S,C-G), with the list of prefixes by which its group has its class.
#[derive(Clone, Copy, PartialEq, Eq)]
pub struct Flow<'a> {
    pub prefixes: &'a [u8],
    pub router: &'a [u8],
    pub source: &'a [u8],
    pub group: &'a [u8],
}

impl Debug for Flow<'_> {
    fn fmt(&self, formatter: &mut Formatter) -> fmt::Result {
        let [prefixes, router, source, group] = [self.prefixes, self.router, self.source, self.group].map(encode);
        write!(formatter, "prefixes {prefixes}, router {router}, source {source}, group {group}")
    }
}

/// The route chosen, with its tier.
#[derive(Clone, Copy, Debug, PartialEq, Eq)]
pub struct Choice<'a> {
    pub tier: u32,
    pub nlri: &'a [u8],
    pub attribute: &'a [u8],
}

/// The fewest octets of a match's output: the longest S-PMSI NLRI and the longest attribute.
pub const LEAST_OUTPUT: usize = 124;

/// Of what match refuses: prefixes, flow, output.
const MOVED: [Moved; 3] =
    [(Fault::PREFIXES_AFTER_FLOW, 0, 1), (Fault::SPACE_BEFORE_FLOW, 2, 1), (Fault::SPACE_BEFORE_PREFIXES, 2, 0)];

impl Second {
    /// What match refuses for its arguments and the family alone: RANGE and SHORT of the prefixes, FLOW, SPACE.
    pub(in crate::second) fn flow_refusal(&self, afi: u16, flow: &Flow, room: usize) -> Option<Number> {
        let family = match self.family(afi) {
            Ok(family) => family,
            Err(number) => return Some(number),
        };
        let small = room < LEAST_OUTPUT && !self.has(Fault::SPACE_WHEN_NEEDED);
        let refusals = [
            self.prefixes(family, flow.prefixes, flow.group).err(),
            self.bad_flow(family, flow),
            small.then_some(Number::Space),
        ];
        self.ordered(refusals, &MOVED).into_iter().flatten().next()
    }

    /// A router of neither size, a source of another size than the family's, a group of another size or not multicast.
    fn bad_flow(&self, family: Family, flow: &Flow) -> Option<Number> {
        let width = family.octets();
        let router = matches!(flow.router.len(), 4 | 16) || self.has(Fault::ROUTER_SIZE_UNJUDGED);
        let source = flow.source.len() == width || self.has(Fault::SOURCE_SIZE_UNJUDGED);
        let unjudged = self.has(Fault::GROUP_NOT_JUDGED) && flow.group.len() == width;
        let among = self.prefixes(family, flow.prefixes, flow.group).unwrap_or_default();
        let group = unjudged || self.class_among(&among, family, flow.group).is_ok();
        (!router || !source || !group).then_some(Number::Flow)
    }

    /// The class of a flow's group. `standard` is the fault that takes the standard range, whatever prefixes are given.
    pub(super) fn flow_class(&self, afi: u16, flow: &Flow, standard: Fault) -> Result<Class, Number> {
        let family = self.family(afi)?;
        let among = self.prefixes(family, flow.prefixes, flow.group)?;
        let among = if self.has(standard) { &[] } else { &among[..] };
        match self.class_among(among, family, flow.group) {
            Err(_) if self.has(Fault::GROUP_NOT_JUDGED) && flow.group.len() == family.octets() => Ok(Class::Asm),
            class => class,
        }
    }

    /// The route of these that the flow takes; the refusals first. `standard` as of the class.
    pub(in crate::second) fn choice<'a>(
        &self,
        afi: u16,
        flow: &Flow,
        room: usize,
        routes: impl Iterator<Item = Route<'a>>,
        standard: Fault,
    ) -> Result<Option<Choice<'a>>, Number> {
        if let Some(number) = self.flow_refusal(afi, flow, room) {
            return Err(number);
        }
        let class = self.flow_class(afi, flow, standard)?;
        let chosen = self.first(afi, routes, Fault::NO_TUNNEL_TAKEN, |route| self.tier(route, flow, class));
        // Only under `SPACE_WHEN_NEEDED` has a smaller output come this far.
        match chosen {
            Some(choice) if choice.nlri.len() + choice.attribute.len() > room => Err(Number::Space),
            chosen => Ok(chosen),
        }
    }

    /// The first of these routes that names a tunnel, in the order of their tiers and in a tier of their distinguishers.
    /// `unnamed` is the fault that takes any.
    pub(in crate::second) fn first<'a>(
        &self,
        afi: u16,
        routes: impl Iterator<Item = Route<'a>>,
        unnamed: Fault,
        tier_of: impl Fn(&Reading) -> Option<u32>,
    ) -> Option<Choice<'a>> {
        let ranked = routes.filter_map(|(nlri, attribute)| {
            let reading = self.single(afi, nlri).ok()?;
            let tier = tier_of(&reading)?;
            Some((self.rank(tier, &reading), Choice { tier, nlri, attribute }))
        });
        let mut ranked: Vec<_> = ranked.collect();
        ranked.sort_by_key(|(rank, _)| *rank);
        if self.has(Fault::NO_TUNNEL_HIDES_TIER) {
            ranked.dedup_by_key(|(_, choice)| choice.tier);
        }
        if self.has(Fault::NO_TUNNEL_HIDES_ALL) {
            ranked.truncate(1);
        }
        let takes = |choice: &Choice| self.has(unnamed) || self.names_tunnel(choice.attribute);
        ranked.into_iter().map(|(_, choice)| choice).find(takes)
    }

    /// Whether an attribute names a tunnel: one of type 0, "no tunnel information present", does not (RFC 6514, section 5).
    pub fn names_tunnel(&self, attribute: &[u8]) -> bool {
        let Ok(Attribute { flags, tunnel_type, label_field, .. }) = self.attribute(attribute) else { return false };
        if self.has(Fault::NO_TUNNEL_BY_FLAGS) {
            return flags != 0;
        }
        if self.has(Fault::NO_TUNNEL_BY_LABEL) {
            return label_field >> 4 != 0;
        }
        tunnel_type != 0 || self.has(Fault::NO_TUNNEL_ASKS_LEAVES) && flags & 1 == 1
    }

    /// The tier in which a route of the router takes the flow.
    fn tier(&self, route: &Reading, flow: &Flow, class: Class) -> Option<u32> {
        match (route.octets(Field::Source), route.octets(Field::Group), class) {
            (source, group, _) if (source, group) == (flow.source, flow.group) => Some(1),
            (source, [], Class::Ssm) if source == flow.source => Some(2),
            (source, [], Class::Asm) if source == flow.source && self.has(Fault::SOURCE_ROUTE_FOR_ASM) => Some(2),
            ([], group, Class::Asm) if group == flow.group => Some(3),
            ([], group, Class::Ssm) if group == flow.group && self.has(Fault::GROUP_ROUTE_FOR_SSM) => Some(3),
            ([], [], _) => Some(4),
            _ => None,
        }
    }

    /// What decides between routes, the lowest first: the tier, then the distinguisher as eight octets.
    fn rank(&self, tier: u32, route: &Reading) -> (u32, [u8; 8]) {
        let mut distinguisher: [u8; 8] = route.octets(Field::Distinguisher).try_into().unwrap_or_default();
        if self.has(Fault::DISTINGUISHER_HIGHEST) {
            distinguisher = distinguisher.map(|octet| !octet);
        }
        if self.has(Fault::DISTINGUISHER_FROM_THE_END) {
            distinguisher.reverse();
        }
        if self.has(Fault::DISTINGUISHER_SIGNED) {
            distinguisher = distinguisher.map(|octet| octet ^ 0x80);
        }
        match tier {
            _ if self.has(Fault::TIER_HIGHEST) => (u32::MAX - tier, distinguisher),
            4 if self.has(Fault::ANY_GROUP_FIRST) => (0, distinguisher),
            _ if self.has(Fault::DISTINGUISHER_BEFORE_TIER) => (0, distinguisher),
            _ => (tier, distinguisher),
        }
    }
}
