//! What one change of a table does to the answer that a match had before (document 02, W-213), told from that answer, from the change
//! and from what was asked; of the table only its marks are looked at. And who asks again after a change (docs/PLANNING.md).

use super::{
    choice::{Choice, Flow},
    shared::Reception,
};
use crate::{
    ffi::Restarted,
    second::{
        fault::Fault,
        groups::{class::Class, prefixes::NO_PREFIXES},
        nlri::rows::Field,
        table::{
            calls::{TableAnswer, TableCall},
            memory::Table,
        },
        Second,
    },
};
use std::iter;

/// What a change does to an answer.
#[derive(Clone, Copy, Debug, PartialEq, Eq, PartialOrd, Ord)]
pub enum Effect {
    /// The change is refused, and does nothing.
    Refused,
    /// Nothing: the answer is not concerned.
    Unfelt,
    /// The route installed is the answer now, in this tier.
    Becomes(u32),
    /// The route answered has another attribute, and stays the answer, in this tier.
    Replaced(u32),
    /// The route answered has an attribute that names no tunnel, and is the answer no more.
    Unnamed,
    /// The route answered was withdrawn.
    Withdrawn,
    /// The route answered went with a mark or a sweep.
    Went,
}

/// An attribute that names a tunnel: ingress replication to 10.0.0.1.
const TUNNEL: [u8; 9] = [0, 6, 0, 0, 0, 10, 0, 0, 1];

impl TableAnswer {
    /// Tier, NLRI and attribute of the route that a match of any kind gave, where it gave one.
    pub fn route(&self) -> Option<Choice<'_>> {
        let (matched, output) = self.matched().filter(|(matched, _)| matched.tier != 0)?;
        let (nlri, rest) = output.split_at(matched.nlri_size as usize);
        Some(Choice { tier: matched.tier, nlri, attribute: &rest[..matched.attribute_size as usize] })
    }

    /// The number of any answer.
    pub fn number(&self) -> u32 {
        match self {
            TableAnswer::Installed(installed) => installed.number,
            TableAnswer::Withdrawn(number) => *number,
            TableAnswer::Restarted(restarted) => restarted.number,
            TableAnswer::Matched(matched, _) => matched.number,
            TableAnswer::Explained(explained, _) => explained.matched.number,
        }
    }
}

impl<'a> TableCall<'a> {
    /// What a match of any kind was asked with: the router and the output; of other calls none.
    fn asked(&self) -> (&'a [u8], &'a [u8]) {
        match *self {
            TableCall::Match { flow, output } | TableCall::Explain { flow, output } => (flow.router, output),
            TableCall::MatchShared { reception, output } => (reception.router, output),
            _ => (&[], &[]),
        }
    }

    /// The same match by other prefixes.
    pub fn by_prefixes(self, prefixes: &'a [u8]) -> TableCall<'a> {
        match self {
            TableCall::Match { flow, output } => TableCall::Match { flow: Flow { prefixes, ..flow }, output },
            TableCall::Explain { flow, output } => TableCall::Explain { flow: Flow { prefixes, ..flow }, output },
            TableCall::MatchShared { reception, output } => {
                TableCall::MatchShared { reception: Reception { prefixes, ..reception }, output }
            }
            other => other,
        }
    }
}

/// What decides between two routes: the tier, then the distinguisher, behind the header.
fn rank(tier: u32, nlri: &[u8]) -> (u32, &[u8]) {
    (tier, nlri.get(2..10).unwrap_or_default())
}

// ---- what a change does

impl Second {
    /// What the change, which was answered with this number, does to the answer `held` of what was asked. `before` is the table before it.
    pub fn effect(
        &self,
        before: &Table,
        change: &TableCall,
        number: u32,
        asked: &TableCall,
        held: Option<Choice>,
    ) -> Effect {
        match *change {
            TableCall::Install { nlri, attribute } if number == 0 => {
                self.effect_of_install(before.afi, nlri, attribute, asked, held)
            }
            TableCall::Install { nlri, .. } if self.has(Fault::REFUSED_INSTALL_FELT) => match held {
                Some(held) if held.nlri == nlri => Effect::Withdrawn,
                _ => Effect::Refused,
            },
            _ if number != 0 => Effect::Refused,
            TableCall::Withdraw { nlri } => match held {
                Some(held) if self.is_withdrawn(before.afi, nlri, held.nlri) => Effect::Withdrawn,
                _ => Effect::Unfelt,
            },
            TableCall::Mark { router } | TableCall::Sweep { router } => match held {
                Some(held) if self.goes(before, change, router, held.nlri) => Effect::Went,
                _ => Effect::Unfelt,
            },
            _ => Effect::Unfelt,
        }
    }

    /// Whether a withdrawal takes the route answered: they have one NLRI.
    fn is_withdrawn(&self, afi: u16, nlri: &[u8], answered: &[u8]) -> bool {
        let behind = |nlri: &[u8]| nlri.get(10..).map(<[u8]>::to_vec);
        match () {
            _ if self.has(Fault::WITHDRAWAL_UNFELT) => false,
            _ if self.has(Fault::WITHDRAWAL_FELT_BY_ROUTER) => {
                self.originator(afi, nlri) == self.originator(afi, answered)
            }
            _ if self.has(Fault::WITHDRAWAL_FELT_BY_FLOW) => behind(nlri) == behind(answered),
            _ => nlri == answered,
        }
    }

    fn originator<'a>(&self, afi: u16, nlri: &'a [u8]) -> &'a [u8] {
        self.single(afi, nlri).map_or(&[][..], |reading| reading.octets(Field::Originator))
    }

    /// Whether a mark or a sweep takes the route answered: it is the router's, and was marked before.
    fn goes(&self, before: &Table, change: &TableCall, router: &[u8], answered: &[u8]) -> bool {
        let own = self.originates(before.afi, answered, router);
        let marked = before.stale.contains(answered);
        match change {
            TableCall::Mark { .. } if self.has(Fault::MARK_FELT) => own,
            TableCall::Mark { .. } if self.has(Fault::MARK_UNFELT) => false,
            TableCall::Sweep { .. } if self.has(Fault::SWEEP_UNFELT) => false,
            TableCall::Sweep { .. } if self.has(Fault::SWEEP_FELT_BY_ROUTER) => own,
            _ if self.has(Fault::RESTART_FELT_BY_OTHERS) => marked,
            _ => own && marked,
        }
    }

    fn effect_of_install(
        &self,
        afi: u16,
        nlri: &[u8],
        attribute: &[u8],
        asked: &TableCall,
        held: Option<Choice>,
    ) -> Effect {
        if let Some(held) = held.filter(|held| held.nlri == nlri) {
            return self.effect_of_replacement(attribute, held);
        }
        match self.tier_alone(afi, nlri, attribute, asked) {
            Some(tier) if self.comes_first(rank(tier, nlri), held.map(|held| rank(held.tier, held.nlri))) => {
                Effect::Becomes(tier)
            }
            _ => Effect::Unfelt,
        }
    }

    /// The route answered gets this attribute.
    fn effect_of_replacement(&self, attribute: &[u8], held: Choice) -> Effect {
        let same = attribute == held.attribute;
        let names_tunnel = self.names_tunnel(attribute) || self.has(Fault::REPLACEMENT_STAYS_UNNAMED);
        match () {
            _ if self.has(Fault::REPLACEMENT_UNFELT) => Effect::Unfelt,
            _ if same && self.has(Fault::REPLACEMENT_FELT_UNCHANGED) => Effect::Unnamed,
            _ if same => Effect::Unfelt,
            _ if !names_tunnel => Effect::Unnamed,
            _ => Effect::Replaced(held.tier),
        }
    }

    /// The tier in which a route takes what is asked, were it the only one: it is of the router asked and names a tunnel.
    fn tier_alone(&self, afi: u16, nlri: &[u8], attribute: &[u8], asked: &TableCall) -> Option<u32> {
        let (router, _) = asked.asked();
        let own = self.originates(afi, nlri, router) || self.has(Fault::INSTALL_FELT_BY_OTHERS);
        let attribute = if self.has(Fault::INSTALL_FELT_UNNAMED) { &TUNNEL[..] } else { attribute };
        let (nlri, attribute) = (nlri.to_vec(), attribute.to_vec());
        let alone = iter::once((&nlri, &attribute)).filter(|_| own);
        let judge = match () {
            _ if self.has(Fault::INSTALL_FELT_BY_STANDARD) => Second::with_fault(Fault::MATCHED_BY_STANDARD),
            _ if self.has(Fault::INSTALL_FELT_INELIGIBLE) => Second::with_fault(Fault::ELIGIBLE_ALWAYS),
            _ if self.has(Fault::INSTALL_FELT_BY_TREES) => Second::with_fault(Fault::SHARED_SOURCE_AND_GROUP),
            _ => Second::sound(),
        };
        let choice = match *asked {
            TableCall::Match { flow, output } | TableCall::Explain { flow, output } => {
                judge.choice(afi, &flow, output.len(), alone, Fault::MATCHED_BY_STANDARD)
            }
            TableCall::MatchShared { reception, output } => judge.shared_choice(afi, &reception, output.len(), alone),
            _ => return None,
        };
        choice.ok().flatten().map(|choice| choice.tier)
    }

    /// Whether a route comes before the one answered, or none was.
    fn comes_first(&self, installed: (u32, &[u8]), answered: Option<(u32, &[u8])>) -> bool {
        let Some(answered) = answered else { return !self.has(Fault::INSTALL_FELT_WHERE_ANSWERED) };
        match () {
            _ if self.has(Fault::INSTALL_FELT_WHERE_NONE) => false,
            _ if self.has(Fault::INSTALL_FELT_ALWAYS) => true,
            _ if self.has(Fault::INSTALL_TIE_STAYS) => installed.0 < answered.0,
            _ if self.has(Fault::INSTALL_TIE_CHANGES) => installed.0 <= answered.0,
            _ => installed < answered,
        }
    }

    /// Whether the answers before and after the change are as this effect has them, with the output that was lent to both.
    pub fn agrees_with(
        &self,
        effect: Effect,
        change: &TableCall,
        asked: &TableCall,
        before: &TableAnswer,
        after: &TableAnswer,
    ) -> bool {
        match (effect, *change) {
            (Effect::Becomes(tier) | Effect::Replaced(tier), TableCall::Install { nlri, attribute }) => {
                let (_, output) = asked.asked();
                let told = self.matched(Ok(Some(Choice { tier, nlri, attribute })), output);
                after.matched() == told.matched()
            }
            (Effect::Withdrawn | Effect::Unnamed | Effect::Went, _) => {
                let nlri = |answer: &TableAnswer| answer.route().map(|route| route.nlri.to_vec());
                nlri(after) != nlri(before)
            }
            _ => before == after,
        }
    }

    /// Whether other prefixes can change what a flow or a shared tree is answered: its group has another class by them. None where a list
    /// is refused.
    pub fn felt_by_prefixes(&self, afi: u16, before: &TableCall, after: &TableCall) -> Option<bool> {
        let class = |call: &TableCall| match *call {
            TableCall::Match { flow, .. } | TableCall::Explain { flow, .. } => {
                self.group_class(afi, flow.prefixes, flow.group).ok()
            }
            TableCall::MatchShared { reception, .. } => self.group_class(afi, reception.prefixes, reception.group).ok(),
            _ => None,
        };
        let (before, after) = (class(before)?, class(after)?);
        Some(match () {
            _ if self.has(Fault::PREFIXES_UNFELT) => false,
            _ if self.has(Fault::PREFIXES_FELT_BY_SSM) => before != after && after == Class::Ssm,
            _ => before != after,
        })
    }
}

// ---- who asks again

impl Second {
    /// The attribute that the NLRI of a change has in a table of one place.
    pub fn attribute_alone(&self, change: &TableCall) -> Vec<u8> {
        match *change {
            TableCall::Install { attribute, .. } if self.has(Fault::ALONE_AS_INSTALLED) => attribute.to_vec(),
            _ => TUNNEL.to_vec(),
        }
    }

    /// What is asked of that table.
    pub fn asked_alone<'a>(&self, asked: TableCall<'a>) -> TableCall<'a> {
        match self.has(Fault::ALONE_BY_STANDARD) {
            true => asked.by_prefixes(NO_PREFIXES),
            false => asked,
        }
    }

    /// Whether who has this answer asks again after a change and its answer; `alone` is the tier that it has in the table of one place.
    pub fn asks_again(
        &self,
        afi: u16,
        change: &TableCall,
        answer: &TableAnswer,
        alone: u32,
        held: Option<Choice>,
    ) -> bool {
        match (*change, answer) {
            _ if answer.number() != 0 => false,
            (TableCall::Install { .. }, _) => match held {
                _ if alone == 0 => false,
                None => !self.has(Fault::ASKED_WHERE_ANSWERED),
                Some(held) if self.has(Fault::ASKED_BEFORE_ALONE) => alone < held.tier,
                Some(held) if self.has(Fault::ASKED_AFTER_ALONE) => alone >= held.tier,
                Some(held) => alone <= held.tier,
            },
            (TableCall::Withdraw { nlri }, _) => {
                held.is_some_and(|held| held.nlri == nlri) && !self.has(Fault::ASKED_NOT_WHERE_WITHDRAWN)
            }
            (TableCall::Mark { .. }, _) if self.has(Fault::ASKED_NOT_AFTER_MARKS) => false,
            (TableCall::Sweep { .. }, _) if self.has(Fault::ASKED_NOT_AFTER_SWEEPS) => false,
            (
                TableCall::Mark { router } | TableCall::Sweep { router },
                TableAnswer::Restarted(Restarted { gone, .. }),
            ) => {
                let many = if self.has(Fault::ASKED_WHERE_TWO_WENT) { 2 } else { 1 };
                *gone >= many && held.is_some_and(|held| self.originates(afi, held.nlri, router))
            }
            _ => false,
        }
    }
}
