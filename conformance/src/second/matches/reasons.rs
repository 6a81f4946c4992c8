//! Why a flow takes its route (document 02, W-204): of each tier the first reason that is true, of rows tried in turn.

use super::choice::{Choice, Flow, LEAST_OUTPUT};
use crate::{
    ffi::{Explained, Matched},
    second::{
        fault::Fault,
        groups::class::Class,
        nlri::rows::Field,
        number::Number,
        table::{calls::TableAnswer, memory::Route},
        Second,
    },
};

const TIERS: [u32; 4] = [1, 2, 3, 4];

/// What a flow's tiers have.
struct Tiers {
    class: Class,
    /// The tiers whose source and group a route of the router has that names a tunnel, whatever the class.
    held: Vec<u32>,
}

impl Tiers {
    /// (C-S,C-*) is for SSM groups, (C-*,C-G) for ASM groups.
    fn forbids(&self, tier: u32) -> bool {
        matches!((tier, self.class), (2, Class::Asm) | (3, Class::Ssm))
    }

    fn holds(&self, tier: u32) -> bool {
        self.held.contains(&tier)
    }

    fn winner(&self) -> Option<u32> {
        TIERS.into_iter().find(|tier| self.holds(*tier) && !self.forbids(*tier))
    }
}

type Reason = fn(&Second, &Tiers, u32) -> bool;

/// The numbers that are told, each with what is true of a tier then.
const REASONS: [(u32, Reason); 4] =
    [(4, Second::earlier_won), (3, Second::wrong_class), (2, Second::no_such_route), (1, |_, _, _| true)];

/// The route that a flow takes, and the reasons of tiers 1 to 4.
pub type Explanation<'a> = (Option<Choice<'a>>, [u32; 4]);

impl Second {
    /// The choice among these routes of the router, and why; the refusals of match first.
    pub(in crate::second) fn explanation<'a>(
        &self,
        afi: u16,
        flow: &Flow,
        room: usize,
        routes: Vec<Route<'a>>,
    ) -> Result<Explanation<'a>, Number> {
        let standard = Fault::EXPLAINED_BY_STANDARD;
        let choice_in = |room| self.choice(afi, flow, room, routes.iter().copied(), standard);
        let choice = match choice_in(room) {
            Err(Number::Space) if self.has(Fault::EXPLAINED_NO_ROOM) && choice_in(LEAST_OUTPUT) == Ok(None) => None,
            choice => choice?,
        };
        let standard = if self.has(standard) { standard } else { Fault::REASONS_BY_STANDARD };
        let class = match self.flow_class(afi, flow, standard)? {
            Class::Asm if self.has(Fault::REASONS_OF_OTHER_CLASS) => Class::Ssm,
            Class::Ssm if self.has(Fault::REASONS_OF_OTHER_CLASS) => Class::Asm,
            class => class,
        };
        let held = routes.iter().filter_map(|route| self.shape(afi, flow, route)).collect();
        let tiers = Tiers { class, held };
        let mut reasons = TIERS.map(|tier| self.reason(&tiers, tier));
        if self.has(Fault::REASONS_BACKWARDS) {
            reasons.reverse();
        }
        if self.has(Fault::REASONS_WHEN_TAKEN) && choice.is_none() {
            reasons = [0; 4];
        }
        Ok((choice, reasons))
    }

    /// The tier that has a route's source and group.
    fn shape(&self, afi: u16, flow: &Flow, (nlri, attribute): &Route) -> Option<u32> {
        if !self.names_tunnel(attribute) && !self.has(Fault::REASONS_COUNT_NO_TUNNEL) {
            return None;
        }
        let reading = self.single(afi, nlri).ok()?;
        let same_source = |source: &[u8]| (source == flow.source) != self.has(Fault::REASONS_OF_OTHER_SOURCE);
        match (reading.octets(Field::Source), reading.octets(Field::Group)) {
            ([], []) => Some(4),
            ([], group) => (group == flow.group).then_some(3),
            (source, []) => same_source(source).then_some(2),
            (source, group) => (same_source(source) && group == flow.group).then_some(1),
        }
    }

    fn reason(&self, tiers: &Tiers, tier: u32) -> u32 {
        if self.has(Fault::REASONS_ALL_ABSENT) {
            return 2;
        }
        let first = REASONS.into_iter().find(|(_, holds)| holds(self, tiers, tier));
        first.map_or(0, |(number, _)| number)
    }

    /// An earlier tier already won.
    fn earlier_won(&self, tiers: &Tiers, tier: u32) -> bool {
        let Some(winner) = tiers.winner() else { return false };
        if self.has(Fault::REASON_WON_BEFORE) {
            return tier != winner;
        }
        if self.has(Fault::REASON_WON_NEXT) {
            return tier == winner + 1;
        }
        let silencing = match (tiers.forbids(tier), tiers.holds(tier)) {
            (true, _) => Fault::REASON_CLASS_AFTER,
            (false, false) => Fault::REASON_ABSENT_AFTER,
            (false, true) => Fault::REASON_TAKEN_AGAIN,
        };
        winner < tier && !self.has(silencing)
    }

    fn wrong_class(&self, tiers: &Tiers, tier: u32) -> bool {
        let untold = self.has(Fault::REASON_CLASS_UNTOLD) || self.has(Fault::REASON_ABSENT_FIRST) && !tiers.holds(tier);
        tiers.forbids(tier) && !untold
    }

    /// Routes that name no tunnel are none.
    fn no_such_route(&self, tiers: &Tiers, tier: u32) -> bool {
        !tiers.holds(tier) || tiers.forbids(tier)
    }

    /// The answer as that of a match, with the reasons; none on a refusal.
    pub(in crate::second) fn explained(&self, explanation: Result<Explanation, Number>, output: &[u8]) -> TableAnswer {
        let (choice, reasons) = match explanation {
            Ok((choice, reasons)) => (Ok(choice), reasons),
            Err(number) => (Err(number), [2 * u32::from(self.has(Fault::REASONS_WHEN_REFUSED)); 4]),
        };
        let (matched, after) = match self.matched(choice, output) {
            TableAnswer::Matched(matched, after) => (matched, after),
            _ => (Matched::default(), output.to_vec()),
        };
        let after = if self.has(Fault::EXPLAINED_UNWRITTEN) { output.to_vec() } else { after };
        TableAnswer::Explained(Explained { matched, reasons }, after)
    }
}
