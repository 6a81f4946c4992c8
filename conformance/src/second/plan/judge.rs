//! The judge of a proposal (document 02, W-214). What is wrong with one is rows, tried in turn. A place that is proposed is judged as the
//! only one of a table, and a flow's match by giving every route its rank.

use super::wish::{Asked, Beside, Item, Wish};
use crate::{
    ffi::Judged,
    second::{
        fault::Fault,
        groups::class::Class,
        nlri::rows::Field,
        number::Number,
        table::{memory::PLACE, salvage::is_zero},
        Second,
    },
};

/// A route that is proposed: its NLRI, its attribute and its mark.
#[derive(Clone, Debug, PartialEq, Eq, PartialOrd, Ord)]
struct Proposed {
    nlri: Vec<u8>,
    attribute: Vec<u8>,
    marked: bool,
}

/// Why a proposal is not accepted.
#[derive(Clone, Copy, Debug, PartialEq, Eq, PartialOrd, Ord)]
pub enum Objection {
    Cut,
    BadPlace,
    Originator,
    Distinguisher,
    Repeated,
    NoRoute,
    OtherAttribute,
}

impl Objection {
    pub const ALL: [Objection; 7] = [
        Objection::Cut,
        Objection::BadPlace,
        Objection::Originator,
        Objection::Distinguisher,
        Objection::Repeated,
        Objection::NoRoute,
        Objection::OtherAttribute,
    ];
}

type Raised = fn(&Second, &Asked, &[Proposed]) -> bool;

/// What can be wrong with routes that are good by themselves, each with the fault that does not ask for it.
const OBJECTIONS: [(Objection, Raised, Fault); 5] = [
    (Objection::Originator, Second::has_other_originator, Fault::JUDGE_ORIGINATOR_UNASKED),
    (Objection::Distinguisher, Second::has_other_distinguisher, Fault::JUDGE_DISTINGUISHER_UNASKED),
    (Objection::Repeated, Second::has_repeated, Fault::JUDGE_REPEATED_UNASKED),
    (Objection::NoRoute, Second::has_unmatched, Fault::JUDGE_UNMATCHED_ACCEPTED),
    (Objection::OtherAttribute, Second::has_unserved, Fault::JUDGE_ATTRIBUTES_UNASKED),
];

impl Second {
    pub fn answer_judge(&self, wish: &Wish, places: &[u8]) -> Judged {
        match self.judged(wish, places) {
            Ok(objection) => Judged { number: 0, accepted: objection.is_none().into() },
            Err(number) => Judged { number: number.value(), accepted: 0 },
        }
    }

    /// The first objection to a proposal; none where it is accepted.
    pub fn judged(&self, wish: &Wish, places: &[u8]) -> Result<Option<Objection>, Number> {
        let asked = self.asked(wish, Beside::Places(places.len()))?;
        match self.wish_refusal(&asked) {
            Some(number) => Err(number),
            None if self.has(Fault::JUDGE_YES) => Ok(None),
            None if self.has(Fault::JUDGE_NO) => Ok(Some(Objection::BadPlace)),
            None => Ok(self.objection(&asked, places)),
        }
    }

    fn objection(&self, asked: &Asked, places: &[u8]) -> Option<Objection> {
        let (whole, rest) = places.split_at(places.len() / PLACE * PLACE);
        if !rest.is_empty() && !self.has(Fault::JUDGE_CUT_PASSED) {
            return Some(Objection::Cut);
        }
        let places = whole.chunks(PLACE).filter(|place| !self.has(Fault::JUDGE_ZERO_PASSED) || !is_zero(place));
        let Some(mut routes) = places.map(|place| self.proposed(asked, place)).collect::<Option<Vec<_>>>() else {
            return Some(Objection::BadPlace);
        };
        if self.has(Fault::JUDGE_OTHER_PASSED) {
            routes.retain(|route| !self.has_other_originator(asked, std::slice::from_ref(route)));
        }
        if self.refuses_routes(asked, &routes) {
            return Some(Objection::Repeated);
        }
        let raised =
            |(_, raised, unasked): &&(Objection, Raised, Fault)| !self.has(*unasked) && raised(self, asked, &routes);
        OBJECTIONS.iter().find(raised).map(|(objection, _, _)| *objection)
    }

    /// The route of a place that would be good if it were the only one of a table.
    fn proposed(&self, asked: &Asked, place: &[u8]) -> Option<Proposed> {
        let judge = self.judge_of_proposals();
        let afi = asked.wish.afi;
        let other = || self.has(Fault::JUDGE_OTHER_FAMILY).then(|| judge.only_place(3 - afi, place)).flatten();
        let table = judge.only_place(afi, place).or_else(other)?;
        let (nlri, attribute) = table.routes.into_iter().next()?;
        Some(Proposed { marked: table.stale.contains(&nlri), nlri, attribute })
    }

    /// The decoder that judges places, where its wrong behaviour is one that tables have too.
    fn judge_of_proposals(&self) -> Second {
        self.with_one_of(&[
            (Fault::JUDGE_KIND_UNJUDGED, Fault::PLACE_KIND_UNCHECKED),
            (Fault::JUDGE_ATTRIBUTE_UNJUDGED, Fault::PLACE_ATTRIBUTE_UNCHECKED),
            (Fault::JUDGE_LABEL_UNJUDGED, Fault::PLACE_LABEL_UNCHECKED),
            (Fault::JUDGE_NO_TUNNEL_BAD, Fault::NO_TUNNEL_UNSOUND),
            (Fault::JUDGE_ZEROS_UNJUDGED, Fault::PADDING_UNCHECKED),
            (Fault::JUDGE_MARK_2, Fault::MARK_2_SOUND),
            (Fault::JUDGE_MARKED_BAD, Fault::MARK_UNSOUND),
        ])
    }

    /// The wrong refusals of good routes, for what is no matter.
    fn refuses_routes(&self, asked: &Asked, routes: &[Proposed]) -> bool {
        let taken = |route: &Proposed| asked.items().iter().any(|item| self.taken(asked, routes, item) == Some(route));
        self.has(Fault::JUDGE_ORDERED) && !routes.is_sorted()
            || self.has(Fault::JUDGE_UNUSED_BAD) && !routes.iter().all(taken)
            || self.has(Fault::JUDGE_AS_FEW_AS_PLANNED) && routes.len() > self.most(asked)
            || self.has(Fault::JUDGE_NONE_REFUSED) && routes.is_empty()
    }

    /// The octets of a field of a route.
    fn part<'a>(&self, asked: &Asked, route: &'a Proposed, field: Field) -> &'a [u8] {
        let afi = asked.wish.afi;
        let reading = self.single(afi, &route.nlri).or_else(|_| self.single(3 - afi, &route.nlri));
        reading.map_or(&[], |reading| reading.octets(field))
    }

    fn has_other_originator(&self, asked: &Asked, routes: &[Proposed]) -> bool {
        let front = |octets: &[u8]| {
            if self.has(Fault::JUDGE_ORIGINATOR_FRONT) {
                octets[..4].to_vec()
            } else {
                octets.to_vec()
            }
        };
        routes.iter().any(|route| front(self.part(asked, route, Field::Originator)) != front(asked.wish.originator))
    }

    fn has_other_distinguisher(&self, asked: &Asked, routes: &[Proposed]) -> bool {
        routes.iter().any(|route| self.part(asked, route, Field::Distinguisher) != asked.wish.distinguisher)
    }

    fn has_repeated(&self, _: &Asked, routes: &[Proposed]) -> bool {
        let same = |left: &Proposed, right: &Proposed| match () {
            _ if self.has(Fault::JUDGE_REPEATED_WHOLE) => left == right,
            _ if self.has(Fault::JUDGE_REPEATED_OTHERS) => left.nlri == right.nlri && left.attribute != right.attribute,
            _ => left.nlri == right.nlri,
        };
        let before = |right: usize| match self.has(Fault::JUDGE_REPEATED_NEIGHBOURS) {
            true => right.saturating_sub(1)..right,
            false => 0..right,
        };
        (0..routes.len()).any(|right| before(right).any(|left| same(&routes[left], &routes[right])))
    }

    /// The flows that must have what they want.
    fn served<'a>(&self, asked: &'a Asked) -> &'a [Item<'a>] {
        match asked.items() {
            [before @ .., _] if self.has(Fault::JUDGE_LAST_FLOW_UNASKED) => before,
            items => items,
        }
    }

    fn has_unmatched(&self, asked: &Asked, routes: &[Proposed]) -> bool {
        self.served(asked).iter().any(|item| self.taken(asked, routes, item).is_none())
    }

    fn has_unserved(&self, asked: &Asked, routes: &[Proposed]) -> bool {
        let is_served = |item: &Item| match self.taken(asked, routes, item) {
            _ if self.has(Fault::JUDGE_ANY_TIER) => {
                let mut ranked = routes.iter().filter(|route| self.tier_of(asked, route, item).is_some());
                ranked.any(|route| self.is_wanted(item, &route.attribute))
            }
            Some(route) => self.is_wanted(item, &route.attribute),
            None => true,
        };
        match self.has(Fault::JUDGE_ONE_SERVED) {
            true => !self.served(asked).is_empty() && !self.served(asked).iter().any(is_served),
            false => !self.served(asked).iter().all(is_served),
        }
    }

    /// Whether an attribute is the one wanted: all octets are equal.
    fn is_wanted(&self, [_, _, wanted]: &Item, attribute: &[u8]) -> bool {
        match () {
            _ if self.has(Fault::JUDGE_WITHOUT_FLAGS) => wanted[1..] == attribute[1..],
            _ if self.has(Fault::JUDGE_WITHOUT_LABEL) => {
                (&wanted[..2], &wanted[5..]) == (&attribute[..2], &attribute[5..])
            }
            _ if self.has(Fault::JUDGE_BY_FRONT) => attribute.starts_with(wanted) || wanted.starts_with(attribute),
            _ => *wanted == attribute,
        }
    }

    /// The route that a flow takes: of all routes of the originator, each with its rank, the one whose rank is the lowest.
    fn taken<'a>(&self, asked: &Asked, routes: &'a [Proposed], item: &Item) -> Option<&'a Proposed> {
        let rank = |route: &'a Proposed| {
            let tier = self.tier_of(asked, route, item)?;
            let tier = if self.has(Fault::JUDGE_LAST_TIER) { 4 - tier } else { tier };
            Some(((tier, self.part(asked, route, Field::Distinguisher)), route))
        };
        routes.iter().filter_map(rank).min_by_key(|(rank, _)| *rank).map(|(_, route)| route)
    }

    /// The place of a route's source and group among those that the flow takes, if it is a candidate.
    fn tier_of(&self, asked: &Asked, route: &Proposed, [source, group, _]: &Item) -> Option<usize> {
        let class = self.class_of(asked, group);
        let specific = class == Class::Ssm;
        let wants: [(&[u8], &[u8], bool); 4] = [
            (source, group, true),
            (source, &[], specific || self.has(Fault::JUDGE_SOURCE_ROUTE_FOR_ASM)),
            (&[], group, !specific || self.has(Fault::JUDGE_GROUP_ROUTE_FOR_SSM)),
            (&[], &[], true),
        ];
        let [of_source, of_group, originator] =
            [Field::Source, Field::Group, Field::Originator].map(|field| self.part(asked, route, field));
        let named = route.attribute[1] != 0 || self.has(Fault::JUDGE_NO_TUNNEL_TAKEN);
        let candidate = named && (originator == asked.wish.originator || self.has(Fault::JUDGE_ORIGINATOR_UNASKED));
        let meets = |(source, group, open): &(&[u8], &[u8], bool)| *open && (*source, *group) == (of_source, of_group);
        wants.iter().position(|want| candidate && meets(want))
    }

    fn class_of(&self, asked: &Asked, group: &[u8]) -> Class {
        let prefixes = match &asked.prefixes {
            Ok(prefixes) if !self.has(Fault::JUDGE_BY_STANDARD) => &prefixes[..],
            _ => &[],
        };
        self.class_among(prefixes, asked.family, group).unwrap_or(Class::Asm)
    }

    /// The tier of each flow's route among those proposed, which are accepted.
    pub fn tiers_of(&self, wish: &Wish, places: &[u8]) -> Vec<u32> {
        let Ok(asked) = self.asked(wish, Beside::Places(places.len())) else { return Vec::new() };
        let routes: Vec<Proposed> = places.chunks(PLACE).filter_map(|place| self.proposed(&asked, place)).collect();
        let tier = |item: &Item| self.tier_of(&asked, self.taken(&asked, &routes, item)?, item);
        asked.items().iter().filter_map(tier).map(|tier| 1 + tier as u32).collect()
    }
}
