//! What is wished for of a plan (document 02, W-214), and what is refused: rows, each tried over all flows before the next.

use crate::{
    hexadecimal::encode,
    second::{
        attribute::{forms::BIER, reading::Attribute},
        fault::Fault,
        groups::prefixes::Prefix,
        lists::List,
        nlri::rows::Family,
        number::Number,
        table::memory::PLACE,
        Moved, Second,
    },
};
use std::{
    collections::BTreeMap,
    fmt::{self, Debug, Formatter},
};

/// The most flows of a plan, and the most octets of the places proposed for one.
pub const MOST_FLOWS: usize = 64;
pub const LONGEST_PROPOSAL: usize = 8_192;

/// What is wished for, as it is lent: every argument of a judge and of a planner but the places.
#[derive(Clone, Copy, PartialEq, Eq)]
pub struct Wish<'a> {
    pub afi: u16,
    pub prefixes: &'a [u8],
    pub originator: &'a [u8],
    pub distinguisher: &'a [u8],
    pub flows: &'a [u8],
}

impl Debug for Wish<'_> {
    fn fmt(&self, formatter: &mut Formatter) -> fmt::Result {
        let [prefixes, originator, distinguisher, flows] =
            [self.prefixes, self.originator, self.distinguisher, self.flows].map(encode);
        write!(formatter, "afi {}, prefixes {prefixes}, originator {originator}, ", self.afi)?;
        write!(formatter, "distinguisher {distinguisher}, flows {flows}")
    }
}

/// Source, group and the attribute wanted.
pub type Item<'a> = [&'a [u8]; 3];

/// The octets that the two calls lend besides: places that are proposed, or room for those that will be.
#[derive(Clone, Copy)]
pub(super) enum Beside {
    Places(usize),
    Room(usize),
}

/// A wish taken apart.
pub(super) struct Asked<'a> {
    pub wish: Wish<'a>,
    pub family: Family,
    pub prefixes: Result<Vec<Prefix>, Number>,
    list: List<'a, 3>,
    beside: Beside,
}

impl<'a> Asked<'a> {
    pub(super) fn items(&self) -> &[Item<'a>] {
        &self.list.items
    }

    /// The attribute of each different flow; where two are listed for one, the last.
    pub(super) fn different(&self) -> BTreeMap<[&'a [u8]; 2], &'a [u8]> {
        self.items().iter().map(|[source, group, wanted]| ([*source, *group], *wanted)).collect()
    }
}

type Refusal = fn(&Second, &Asked) -> Option<Number>;

/// What can be wrong with a wish of a good AFI, in the order in which it is told.
const REFUSALS: [Refusal; 9] = [
    |_, asked| asked.prefixes.as_ref().err().copied(),
    Second::plan_long,
    Second::flows_end_early,
    Second::plan_addresses,
    Second::wanted_unread,
    Second::wanted_label,
    Second::wanted_none,
    Second::conflict,
    Second::plan_space,
];

/// Where the rows of attributes stand: reading, LABEL, TUNNEL.
const ATTRIBUTES: std::ops::Range<usize> = 4..7;

const MOVED: [Moved; 8] = [
    (Fault::PLAN_PREFIXES_AFTER_LONG, 0, 1),
    (Fault::PLAN_LONG_AFTER_SHORT, 1, 2),
    (Fault::PLAN_SHORT_AFTER_FLOW, 2, 3),
    (Fault::PLAN_FLOW_AFTER_READING, 3, 4),
    (Fault::PLAN_READING_AFTER_LABEL, 4, 5),
    (Fault::PLAN_LABEL_AFTER_TUNNEL, 5, 6),
    (Fault::PLAN_TUNNEL_AFTER_CONFLICT, 6, 7),
    (Fault::PLAN_CONFLICT_AFTER_SPACE, 7, 8),
];

impl Second {
    pub(super) fn asked<'a>(&self, wish: &Wish<'a>, beside: Beside) -> Result<Asked<'a>, Number> {
        let afi = if self.has(Fault::PLAN_AFI_LOW_OCTET) { wish.afi & 0xFF } else { wish.afi };
        let family = self.family(afi);
        if self.has(Fault::PLAN_PREFIXES_BEFORE_FAMILY) {
            self.prefixes(family.unwrap_or(Family::Ipv4), wish.prefixes, &[])?;
        }
        let family = family?;
        let prefixes = self.prefixes(family, wish.prefixes, &[]);
        Ok(Asked { wish: Wish { afi, ..*wish }, family, prefixes, list: self.list(wish.flows), beside })
    }

    pub(super) fn wish_refusal(&self, asked: &Asked) -> Option<Number> {
        let mut refusals = self.ordered(REFUSALS, &MOVED);
        if self.has(Fault::PLAN_ATTRIBUTE_BY_ATTRIBUTE) {
            refusals[ATTRIBUTES].fill(|second, asked| {
                second.by_flow(asked, |second, alone| {
                    REFUSALS[ATTRIBUTES].iter().find_map(|refusal| refusal(second, alone))
                })
            });
        }
        if self.has(Fault::PLAN_FLOW_BY_FLOW) {
            refusals[3] = |second, asked| {
                second.by_flow(asked, |second, alone| REFUSALS[3..7].iter().find_map(|refusal| refusal(second, alone)))
            };
        }
        refusals.iter().find_map(|refusal| refusal(self, asked))
    }

    /// The first refusal, where each flow is judged as if it were alone.
    fn by_flow(&self, asked: &Asked, refusal: Refusal) -> Option<Number> {
        let alone = |item: &Item| {
            let list = List { count: 1, items: vec![*item], whole: true };
            refusal(self, &Asked { prefixes: asked.prefixes.clone(), list, ..*asked })
        };
        asked.items().iter().find_map(alone)
    }

    /// Over 64 flows, or over 8,192 octets of places.
    fn plan_long(&self, asked: &Asked) -> Option<Number> {
        let count = match () {
            _ if self.has(Fault::PLAN_COUNT_LOW_OCTET) => asked.list.count % 256,
            _ if self.has(Fault::PLAN_DIFFERENT_COUNTED) && asked.list.whole => asked.different().len(),
            _ => asked.list.count,
        };
        let less = usize::from(self.has(Fault::PLAN_LIMIT_63));
        let more = usize::from(self.has(Fault::PLAN_LIMIT_65));
        let octets = match asked.beside {
            Beside::Places(octets) => octets,
            Beside::Room(_) => 0,
        };
        let most = match () {
            _ if self.has(Fault::JUDGE_LIMIT_8191) => LONGEST_PROPOSAL - 1,
            _ if self.has(Fault::JUDGE_LONG_AS_NO) => usize::MAX,
            _ if self.has(Fault::JUDGE_PART_NOT_COUNTED) => LONGEST_PROPOSAL + PLACE - 1,
            _ => LONGEST_PROPOSAL,
        };
        (count > MOST_FLOWS - less + more || octets > most).then_some(Number::Long)
    }

    fn flows_end_early(&self, asked: &Asked) -> Option<Number> {
        (!asked.list.whole).then_some(Number::Short)
    }

    /// An originator, a distinguisher or an address of a size that it may not have, or a group that is not multicast.
    fn plan_addresses(&self, asked: &Asked) -> Option<Number> {
        let Asked { wish, family, .. } = asked;
        let originator_sizes: &[usize] = match self.has(Fault::PLAN_ORIGINATOR_BY_FAMILY) {
            true => &[family.octets()],
            false => &[4, 16],
        };
        let originator = originator_sizes.contains(&wish.originator.len()) || self.has(Fault::PLAN_ORIGINATOR_UNJUDGED);
        let distinguisher = wish.distinguisher.len() == 8 || self.has(Fault::PLAN_DISTINGUISHER_UNJUDGED);
        let unjudged = self.has(Fault::PLAN_NO_FLOWS_UNJUDGED) && asked.items().is_empty();
        let judged = match self.has(Fault::PLAN_LAST_FLOW_UNJUDGED) {
            true => asked.items().split_last().map_or(&[][..], |(_, before)| before),
            false => asked.items(),
        };
        let flows = judged.iter().all(|[source, group, _]| {
            let wildcard = |address: &[u8]| self.has(Fault::PLAN_WILDCARD_WANTED) && address.is_empty();
            let sized = |address: &[u8]| address.len() == family.octets() || wildcard(address);
            let multicast = self.standard_class(*family, group).is_ok() || self.has(Fault::PLAN_GROUP_UNJUDGED);
            (sized(source) || self.has(Fault::PLAN_SOURCE_UNJUDGED)) && sized(group) && (multicast || wildcard(group))
        });
        let good = unjudged || originator && distinguisher && flows;
        (!good).then_some(Number::Flow)
    }

    /// The number of the first flow whose attribute is refused.
    fn wanted_unread(&self, asked: &Asked) -> Option<Number> {
        let mut refused = asked.items().iter().filter_map(|[_, _, wanted]| self.attribute(wanted).err());
        match self.has(Fault::PLAN_LAST_UNREAD_DECIDES) {
            true => refused.next_back(),
            false => refused.next(),
        }
    }

    /// The attributes wanted, as far as they are read.
    fn read<'a>(&self, asked: &Asked<'a>) -> Vec<Attribute<'a>> {
        asked.items().iter().filter_map(|[_, _, wanted]| self.attribute(wanted).ok()).collect()
    }

    /// BIER with label 0.
    fn wanted_label(&self, asked: &Asked) -> Option<Number> {
        let shift = if self.has(Fault::PLAN_FIELD_FOR_LABEL) { 0 } else { 4 };
        let unlabelled = |wanted: &Attribute| wanted.tunnel_type == BIER && wanted.label_field >> shift == 0;
        let unjudged = self.has(Fault::PLAN_LABEL_UNJUDGED);
        (!unjudged && self.read(asked).iter().any(unlabelled)).then_some(Number::Label)
    }

    /// Tunnel type 0.
    fn wanted_none(&self, asked: &Asked) -> Option<Number> {
        let unjudged = self.has(Fault::PLAN_NO_TUNNEL_WANTED);
        (!unjudged && self.read(asked).iter().any(|wanted| wanted.tunnel_type == 0)).then_some(Number::Tunnel)
    }

    /// One flow, two attributes.
    fn conflict(&self, asked: &Asked) -> Option<Number> {
        let items = asked.items();
        let pairs = (0..items.len()).flat_map(|right| (0..right).map(move |left| (left, right)));
        let conflicts = |(left, right): (usize, usize)| {
            let ([source, group, wanted], [other_source, other_group, other]) = (items[left], items[right]);
            let same_flow = (source == other_source || self.has(Fault::CONFLICT_BY_GROUP))
                && (group == other_group || self.has(Fault::CONFLICT_BY_SOURCE))
                && (right - left == 1 || !self.has(Fault::CONFLICT_OF_NEIGHBOURS));
            let same_attribute = match self.has(Fault::CONFLICT_WITHOUT_FLAGS) {
                true => wanted.get(1..) == other.get(1..),
                false => wanted == other,
            };
            same_flow && (!same_attribute || self.has(Fault::CONFLICT_WHERE_EQUAL))
        };
        let never = self.has(Fault::CONFLICT_NEVER);
        (!never && pairs.into_iter().any(conflicts)).then_some(Number::Conflict)
    }

    /// Room for fewer places than there are flows.
    fn plan_space(&self, asked: &Asked) -> Option<Number> {
        let Beside::Room(room) = asked.beside else { return None };
        let places = match asked.items().len() {
            _ if self.has(Fault::PLAN_SPACE_BY_DIFFERENT) => asked.different().len(),
            _ if self.has(Fault::PLAN_SPACE_BY_ROUTES) => self.most(asked),
            flows if self.has(Fault::PLAN_SPACE_ONE_MORE) => flows + 1,
            flows => flows,
        };
        (room < PLACE * places).then_some(Number::Space)
    }
}
