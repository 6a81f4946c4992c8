//! `mvpn_make`, `mvpn_install`, `mvpn_withdraw`, `mvpn_mark`, `mvpn_sweep`, `mvpn_match`, `mvpn_explain` and `mvpn_match_shared`.

use super::{Disagreement, Harness, Input};
use crate::{
    coverage::{Call, Seen},
    ffi::{self, Explained},
    hexadecimal::encode,
    second::table::{
        calls::{TableAnswer, TableCall},
        memory::{HEADER, PLACE},
    },
};

impl Harness {
    /// Makes a table in the memory, which stays lent for a sequence of calls.
    pub fn make<'a>(&mut self, afi: u16, memory: impl Into<Input<'a>>) -> Result<u32, Disagreement> {
        let memory = memory.into();
        self.lend_table(memory);
        let archive = ffi::make(afi, &mut self.table);
        let second = self.second.make(afi, memory.octets.len());
        self.table.expect_front(second.as_deref().unwrap_or(&[]));
        let second = second.err().map_or(0, |number| number.value());
        self.agree(|| format!("mvpn_make(afi {afi}) in {}", encode(memory.octets)), &archive, &second)?;
        self.coverage.count(Call::Make, Seen::Number(archive));
        if archive == 0 {
            self.coverage.count(Call::Make, Seen::Family(afi));
        }
        Ok(archive)
    }

    /// A call on the table memory, whatever it holds.
    pub fn table_call<'a>(
        &mut self,
        memory: impl Into<Input<'a>>,
        call: TableCall,
    ) -> Result<TableAnswer, Disagreement> {
        self.table_call_before(memory, call, &[])
    }

    /// The same, with `after` standing right behind each of the call's inputs.
    pub fn table_call_before<'a>(
        &mut self,
        memory: impl Into<Input<'a>>,
        call: TableCall,
        after: &[u8],
    ) -> Result<TableAnswer, Disagreement> {
        let memory = memory.into();
        self.inputs += 1;
        self.lend_table(memory);
        let (second, image) = self.second.on_memory(memory.octets, &call);
        self.called(&call, after, &second, &image)
    }

    /// A call on the table as the last one left it, with the answer and the table octets that it must give.
    pub fn next_call(
        &mut self,
        call: &TableCall,
        answer: &TableAnswer,
        image: &[u8],
    ) -> Result<TableAnswer, Disagreement> {
        self.sequence_calls += 1;
        self.called(call, &[], answer, image)
    }

    /// The table memory as the last call left it.
    pub fn table(&self) -> &[u8] {
        self.table.octets()
    }

    pub(super) fn lend_table(&mut self, memory: Input) {
        self.table.place(memory.octets, memory.after, (self.calls % 241) as u8);
    }

    /// Calls the archive on the lent table and compares.
    fn called(
        &mut self,
        call: &TableCall,
        after: &[u8],
        second: &TableAnswer,
        image: &[u8],
    ) -> Result<TableAnswer, Disagreement> {
        let before = self.table.octets().to_vec();
        self.lend_arguments(call, after);
        self.table.expect_front(image);
        if let Some((_, output)) = second.matched() {
            self.output.expect_front(output);
        }
        let archive = self.archive_answer(call);
        self.agree(|| format!("{call:?} on {}", encode(&before)), &archive, second)?;
        self.count_answer(call, &archive);
        Ok(archive)
    }

    fn lend_arguments(&mut self, call: &TableCall, after: &[u8]) {
        let pattern = (self.calls % 233) as u8;
        match *call {
            TableCall::Install { nlri, attribute } => {
                self.lend(Input { octets: nlri, after });
                self.attribute.place(attribute, after, pattern);
            }
            TableCall::Withdraw { nlri } => self.lend(Input { octets: nlri, after }),
            TableCall::Mark { router } | TableCall::Sweep { router } => self.flow[0].place(router, after, pattern),
            TableCall::Match { flow, output } | TableCall::Explain { flow, output } => {
                self.prefixes.place(flow.prefixes, after, pattern);
                for (lent, octets) in self.flow.iter_mut().zip([flow.router, flow.source, flow.group]) {
                    lent.place(octets, after, pattern);
                }
                self.output.place(output, &[], pattern);
            }
            TableCall::MatchShared { reception, output } => {
                let [router, _, group] = &mut self.flow;
                let [source_actives, states] = &mut self.lists;
                self.prefixes.place(reception.prefixes, after, pattern);
                router.place(reception.router, after, pattern);
                group.place(reception.group, after, pattern);
                source_actives.place(reception.source_actives, after, pattern);
                states.place(reception.states, after, pattern);
                self.output.place(output, &[], pattern);
            }
        }
    }

    fn archive_answer(&mut self, call: &TableCall) -> TableAnswer {
        match call {
            TableCall::Install { .. } => {
                TableAnswer::Installed(ffi::install(&mut self.table, &mut self.input, &mut self.attribute))
            }
            TableCall::Withdraw { .. } => TableAnswer::Withdrawn(ffi::withdraw(&mut self.table, &mut self.input)),
            TableCall::Mark { .. } => TableAnswer::Restarted(ffi::mark(&mut self.table, &mut self.flow[0])),
            TableCall::Sweep { .. } => TableAnswer::Restarted(ffi::sweep(&mut self.table, &mut self.flow[0])),
            TableCall::Match { .. } => {
                let Harness { table, prefixes, flow, output, .. } = self;
                let matched = ffi::match_flow(table, prefixes, flow, output);
                TableAnswer::Matched(matched, self.output.octets().to_vec())
            }
            TableCall::Explain { .. } => {
                let Harness { table, prefixes, flow, output, .. } = self;
                let explained = ffi::explain(table, prefixes, flow, output);
                TableAnswer::Explained(explained, self.output.octets().to_vec())
            }
            TableCall::MatchShared { reception, .. } => {
                let Harness { table, prefixes, flow: [router, _, group], lists, output, .. } = self;
                let matched = ffi::match_shared(table, prefixes, [router, group], reception.facts, lists, output);
                TableAnswer::Matched(matched, self.output.octets().to_vec())
            }
        }
    }

    fn count_answer(&mut self, call: &TableCall, answer: &TableAnswer) {
        // Only a sound table has an answer that counts by its family.
        let afi = self.table.octets().get(5).map_or(0, |afi| u16::from(*afi));
        let (number, seen) = match answer {
            TableAnswer::Installed(installed) => (installed.number, Seen::Outcome(afi, installed.outcome)),
            TableAnswer::Withdrawn(number) => (*number, Seen::Family(afi)),
            TableAnswer::Restarted(restarted) => (restarted.number, Seen::Gone(afi, restarted.gone.min(3))),
            TableAnswer::Matched(matched, _) | TableAnswer::Explained(Explained { matched, .. }, _) => {
                (matched.number, Seen::Tier(afi, matched.tier))
            }
        };
        let call = match call {
            TableCall::Install { .. } => Call::Install,
            TableCall::Withdraw { .. } => Call::Withdraw,
            TableCall::Mark { .. } => Call::Mark,
            TableCall::Sweep { .. } => Call::Sweep,
            TableCall::Match { .. } => Call::Match,
            TableCall::Explain { .. } => Call::Explain,
            TableCall::MatchShared { .. } => Call::MatchShared,
        };
        self.coverage.count(call, Seen::Number(number));
        if number == 0 {
            self.coverage.count(call, seen);
        }
        if let Some(tier) = self.stale_taken(answer) {
            self.coverage.count(call, Seen::StaleTaken(afi, tier));
        }
        if let TableAnswer::Explained(Explained { reasons, .. }, _) = answer {
            let told = reasons.iter().zip(1..).filter(|(reason, _)| **reason != 0);
            told.for_each(|(reason, tier)| self.coverage.count(call, Seen::Reason(tier, *reason)));
        }
    }

    /// The tier of a match of any kind whose route is marked.
    fn stale_taken(&self, answer: &TableAnswer) -> Option<u32> {
        let (matched, output) = answer.matched().filter(|(matched, _)| matched.tier != 0)?;
        let nlri = &output[..matched.nlri_size as usize];
        let mut places = self.table.octets()[HEADER..].chunks(PLACE);
        places.any(|place| place[2..].starts_with(nlri) && place[PLACE - 1] == 1).then_some(matched.tier)
    }
}
