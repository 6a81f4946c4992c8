//! Making a table, install, withdraw, mark, sweep, both matches and explain, on a table and on lent memory.

use super::memory::{size, Route, Table, PLACE};
use crate::{
    ffi::{Explained, Installed, Matched, Restarted},
    hexadecimal::encode,
    second::{
        fault::Fault,
        matches::{
            choice::{Choice, Flow},
            shared::Reception,
        },
        nlri::rows::Field,
        number::Number,
        Second,
    },
};
use std::fmt::{self, Debug, Formatter};

/// A call on a table, with every argument but the table.
#[derive(Clone, Copy)]
pub enum TableCall<'a> {
    Install {
        nlri: &'a [u8],
        attribute: &'a [u8],
    },
    Withdraw {
        nlri: &'a [u8],
    },
    Mark {
        router: &'a [u8],
    },
    Sweep {
        router: &'a [u8],
    },
    /// `output` is what the output holds beforehand.
    Match {
        flow: Flow<'a>,
        output: &'a [u8],
    },
    /// A match's arguments.
    Explain {
        flow: Flow<'a>,
        output: &'a [u8],
    },
    /// `output` as of a match.
    MatchShared {
        reception: Reception<'a>,
        output: &'a [u8],
    },
}

/// The number, its fields and, for a match, the output octets afterwards.
#[derive(Clone, PartialEq, Eq)]
pub enum TableAnswer {
    Installed(Installed),
    Withdrawn(u32),
    /// Of a mark and of a sweep.
    Restarted(Restarted),
    Matched(Matched, Vec<u8>),
    Explained(Explained, Vec<u8>),
}

impl TableAnswer {
    /// What a match of any kind answered, and the output afterwards.
    pub fn matched(&self) -> Option<(&Matched, &[u8])> {
        match self {
            TableAnswer::Matched(matched, output) => Some((matched, output)),
            TableAnswer::Explained(explained, output) => Some((&explained.matched, output)),
            TableAnswer::Installed(_) | TableAnswer::Withdrawn(_) | TableAnswer::Restarted(_) => None,
        }
    }
}

impl Debug for TableCall<'_> {
    fn fmt(&self, formatter: &mut Formatter) -> fmt::Result {
        match self {
            TableCall::Install { nlri, attribute } => {
                write!(formatter, "mvpn_install(nlri {}, attribute {})", encode(nlri), encode(attribute))
            }
            TableCall::Withdraw { nlri } => write!(formatter, "mvpn_withdraw(nlri {})", encode(nlri)),
            TableCall::Mark { router } => write!(formatter, "mvpn_mark(router {})", encode(router)),
            TableCall::Sweep { router } => write!(formatter, "mvpn_sweep(router {})", encode(router)),
            TableCall::Match { flow, output } => write!(formatter, "mvpn_match({flow:?}, output of {})", output.len()),
            TableCall::Explain { flow, output } => {
                write!(formatter, "mvpn_explain({flow:?}, output of {})", output.len())
            }
            TableCall::MatchShared { reception, output } => {
                let Reception { prefixes, router, group, facts, source_actives, states } = reception;
                let [prefixes, router, group, source_actives, states] =
                    [prefixes, router, group, source_actives, states].map(|it| encode(it));
                write!(
                    formatter,
                    "mvpn_match_shared(prefixes {prefixes}, router {router}, group {group}, {facts:?}, "
                )?;
                write!(formatter, "source_actives {source_actives}, states {states}, output of {})", output.len())
            }
        }
    }
}

impl Debug for TableAnswer {
    fn fmt(&self, formatter: &mut Formatter) -> fmt::Result {
        match self {
            TableAnswer::Installed(installed) => write!(formatter, "{installed:?}"),
            TableAnswer::Withdrawn(number) => write!(formatter, "number {number}"),
            TableAnswer::Restarted(restarted) => write!(formatter, "{restarted:?}"),
            TableAnswer::Matched(matched, output) => write!(formatter, "{matched:?}, output {}", encode(output)),
            TableAnswer::Explained(explained, output) => write!(formatter, "{explained:?}, output {}", encode(output)),
        }
    }
}

/// The outcome of an accepted install.
#[derive(Clone, Copy, Debug, PartialEq, Eq)]
pub enum Outcome {
    New = 1,
    Replaced = 2,
}

impl Second {
    /// The image of the table made: FAMILY, TABLE.
    pub fn make(&self, afi: u16, octets: usize) -> Result<Vec<u8>, Number> {
        if self.has(Fault::TABLE_BEFORE_FAMILY) && self.places(octets).is_none() {
            return Err(Number::Table);
        }
        self.family(afi)?;
        let places = self.places(octets).ok_or(Number::Table)?;
        let mut image = Table::new(afi, places).image();
        image.resize(octets, 0);
        Ok(image)
    }

    /// A call on lent memory, TABLE first, and the memory afterwards.
    pub fn on_memory(&self, memory: &[u8], call: &TableCall) -> (TableAnswer, Vec<u8>) {
        let mut table = match self.table(memory) {
            Ok(table) => table,
            Err(number) => return (self.refused(call, self.unsound(memory, call, number)), memory.to_vec()),
        };
        let answer = self.on_table(&mut table, call);
        let mut image = table.image();
        image.resize(memory.len(), 0);
        if self.has(Fault::WITHDRAWN_NOT_ZEROED) && answer == TableAnswer::Withdrawn(0) {
            let left = size(table.routes.len())..size(table.routes.len()) + PLACE;
            image[left.clone()].copy_from_slice(&memory[left]);
        }
        (answer, image)
    }

    /// The number for unsound memory: TABLE, whatever the other arguments are.
    fn unsound(&self, memory: &[u8], call: &TableCall, number: Number) -> Number {
        match memory.get(5) {
            Some(afi) if self.has(Fault::TABLE_LAST) => self.refusal(u16::from(*afi), call).unwrap_or(number),
            Some(afi) if self.has(Fault::PREFIXES_BEFORE_TABLE) => {
                self.refusal(u16::from(*afi), call).filter(|first| *first == Number::Range).unwrap_or(number)
            }
            _ => number,
        }
    }

    /// The first number in the call's order that its arguments and the family cause.
    pub(in crate::second) fn refusal(&self, afi: u16, call: &TableCall) -> Option<Number> {
        match *call {
            TableCall::Install { nlri, attribute } => self.accepted(afi, nlri, attribute).err(),
            TableCall::Withdraw { nlri } => self.s_pmsi(afi, nlri).err(),
            TableCall::Mark { router } | TableCall::Sweep { router } => self.restarting(afi, router).err(),
            TableCall::Match { flow, output } | TableCall::Explain { flow, output } => {
                self.flow_refusal(afi, &flow, output.len())
            }
            TableCall::MatchShared { reception, output } => self.reception_refusal(afi, &reception, output.len()),
        }
    }

    /// A refusal: its number and empty fields, the output as it was.
    pub(in crate::second) fn refused(&self, call: &TableCall, number: Number) -> TableAnswer {
        match call {
            TableCall::Install { .. } => self.installed(Err(number)),
            TableCall::Withdraw { .. } => withdrawn(Err(number)),
            TableCall::Mark { .. } | TableCall::Sweep { .. } => self.restarted(Err(number)),
            TableCall::Match { output, .. } | TableCall::MatchShared { output, .. } => {
                self.matched(Err(number), output)
            }
            TableCall::Explain { output, .. } => self.explained(Err(number), output),
        }
    }

    /// A call on a sound table.
    pub fn on_table(&self, table: &mut Table, call: &TableCall) -> TableAnswer {
        match *call {
            TableCall::Install { nlri, attribute } => self.installed(self.install(table, nlri, attribute)),
            TableCall::Withdraw { nlri } => withdrawn(self.withdraw(table, nlri)),
            TableCall::Mark { router } => self.restarted(self.mark(table, router)),
            TableCall::Sweep { router } => self.restarted(self.sweep(table, router)),
            TableCall::Match { flow, output } => {
                let candidates = self.candidates(table, flow.router, Fault::MARKED_TAKES_NO_FLOW);
                let choice = self.choice(table.afi, &flow, output.len(), candidates, Fault::MATCHED_BY_STANDARD);
                self.matched(choice, output)
            }
            TableCall::Explain { flow, output } => {
                let candidates = self.candidates(table, flow.router, Fault::MARKED_UNEXPLAINED).collect();
                self.explained(self.explanation(table.afi, &flow, output.len(), candidates), output)
            }
            TableCall::MatchShared { reception, output } => {
                let candidates = self.candidates(table, reception.router, Fault::MARKED_TAKES_NO_TREE);
                self.matched(self.shared_choice(table.afi, &reception, output.len(), candidates), output)
            }
        }
    }

    fn install(&self, table: &mut Table, nlri: &[u8], attribute: &[u8]) -> Result<Outcome, Number> {
        let held = table.routes.contains_key(nlri);
        let marked = table.stale.contains(nlri);
        let full = table.routes.len() >= table.places && (!held || self.has(Fault::REPLACEMENT_NEEDS_ROOM));
        if full && self.has(Fault::ROOM_BEFORE_NLRI) {
            return Err(Number::Room);
        }
        let accepted = self.accepted(table.afi, nlri, attribute);
        if accepted.is_err() && self.has(Fault::REFUSED_INSTALL_WITHDRAWS) {
            table.routes.remove(nlri);
        }
        let room_first = full && self.has(Fault::ROOM_BEFORE_LABEL) && accepted == Err(Number::Label);
        if room_first {
            return Err(Number::Room);
        }
        if accepted.is_err() && self.has(Fault::REFUSED_INSTALL_UNMARKS) {
            table.stale.remove(nlri);
        }
        accepted?;
        if full && self.has(Fault::MARKED_MAKES_ROOM) {
            if let Some(marked) = table.stale.pop_first() {
                table.routes.remove(&marked);
            }
        }
        if full && table.routes.len() >= table.places {
            return Err(Number::Room);
        }
        let ignores = self.has(Fault::FIRST_INSTALL_ONLY) && !table.routes.is_empty();
        let keeps = self.has(Fault::REPLACEMENT_KEEPS_OLD) && held;
        let before = match ignores || keeps {
            true => None,
            false => table.routes.insert(nlri.to_vec(), attribute.to_vec()),
        };
        let same = before.is_some_and(|before| before == attribute);
        let keeps_mark = self.has(Fault::INSTALL_KEEPS_MARK) || same && self.has(Fault::SAME_INSTALL_KEEPS_MARK);
        if !keeps_mark {
            table.stale.remove(nlri);
        }
        if self.has(Fault::INSTALL_UNMARKS_ALL) {
            table.stale.clear();
        }
        match held && !(marked && self.has(Fault::MARKED_INSTALL_NEW)) {
            true => Ok(Outcome::Replaced),
            false => Ok(Outcome::New),
        }
    }

    fn withdraw(&self, table: &mut Table, nlri: &[u8]) -> Result<(), Number> {
        if self.has(Fault::ABSENT_BEFORE_NLRI) && !table.routes.contains_key(nlri) {
            return Err(Number::Absent);
        }
        self.s_pmsi(table.afi, nlri)?;
        let unnamed = table.routes.get(nlri).is_some_and(|attribute| !self.names_tunnel(attribute));
        if unnamed && self.has(Fault::NO_TUNNEL_ABSENT) {
            return Err(Number::Absent);
        }
        if self.has(Fault::MARKED_ABSENT) && table.stale.contains(nlri) {
            return Err(Number::Absent);
        }
        if self.has(Fault::WITHDRAWAL_UNMARKS) && table.stale.remove(nlri) {
            return Ok(());
        }
        table.stale.remove(nlri);
        match table.routes.remove(nlri) {
            None if !self.has(Fault::ABSENT_DONE) => Err(Number::Absent),
            _ => Ok(()),
        }
    }

    /// The routes whose originator is the router asked about, those that name no tunnel and those that are marked among them.
    /// `unmarked` is the fault that leaves the marked ones out.
    fn candidates<'a>(
        &'a self,
        table: &'a Table,
        router: &'a [u8],
        unmarked: Fault,
    ) -> impl Iterator<Item = Route<'a>> {
        let own = table.routes.iter().filter(|(nlri, _)| self.originates(table.afi, nlri, router));
        let marked = |(nlri, _): &Route| table.stale.contains(*nlri);
        let leaves_out = self.has(unmarked) || self.has(Fault::MARKED_TAKES_LAST) && !own.clone().all(|it| marked(&it));
        own.filter(move |route| !(leaves_out && marked(route)))
    }

    /// Whether the route's originator is the router, in size and octets.
    pub(in crate::second) fn originates(&self, afi: u16, nlri: &[u8], router: &[u8]) -> bool {
        let originator = self.single(afi, nlri).map_or(&[][..], |reading| reading.octets(Field::Originator));
        let mapped = [&[0; 10][..], &[0xFF; 2], router].concat();
        originator == router
            || self.has(Fault::ORIGINATOR_SIZE_IGNORED)
                && (originator.starts_with(router) || router.starts_with(originator))
            || self.has(Fault::ROUTER_MAPPED) && originator == mapped
    }

    pub(in crate::second) fn installed(&self, outcome: Result<Outcome, Number>) -> TableAnswer {
        TableAnswer::Installed(match outcome {
            Ok(outcome) => Installed { number: 0, outcome: outcome as u32 },
            Err(number) => {
                let outcome = u32::from(self.has(Fault::REFUSED_INSTALL_NEW));
                Installed { number: number.value(), outcome }
            }
        })
    }

    /// The chosen route stands at the front of the output, the attribute straight after the NLRI.
    pub(in crate::second) fn matched(&self, choice: Result<Option<Choice>, Number>, output: &[u8]) -> TableAnswer {
        match choice {
            Ok(Some(Choice { tier, nlri, attribute })) => {
                let written = [nlri, attribute].concat();
                let kept = output[written.len()..].iter();
                let rest = kept.map(|octet| if self.has(Fault::OUTPUT_CLEARED) { 0 } else { *octet });
                let sizes = (nlri.len() as u32, attribute.len() as u32);
                let answer = Matched { number: 0, tier, nlri_size: sizes.0, attribute_size: sizes.1 };
                TableAnswer::Matched(answer, written.iter().copied().chain(rest).collect())
            }
            Ok(None) => TableAnswer::Matched(Matched::default(), output.to_vec()),
            Err(number) => {
                TableAnswer::Matched(Matched { number: number.value(), ..Default::default() }, output.to_vec())
            }
        }
    }
}

pub(in crate::second) fn withdrawn(result: Result<(), Number>) -> TableAnswer {
    TableAnswer::Withdrawn(result.err().map_or(0, Number::value))
}
