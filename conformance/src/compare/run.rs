//! `mvpn_step` and `mvpn_walk`.

use super::{disagree, Checked, Disagreement, Harness, Input};
use crate::{
    coverage::{Call, Seen},
    ffi::{self, Stepped, Walked},
    hexadecimal::encode,
    second::runs::run::{OLD, SKIP},
};

/// Numbers of modes: every one but the first is the old mode.
pub const MODES: [u32; 8] = [SKIP, OLD, SKIP, 2, SKIP, 256, SKIP, u32::MAX];

impl Harness {
    pub fn step<'a>(&mut self, afi: u16, run: impl Into<Input<'a>>, cursor: usize) -> Result<Stepped, Disagreement> {
        let run = run.into();
        self.lend(run);
        let archive = ffi::step(afi, &mut self.input, cursor);
        let second = self.second.answer_step(afi, run.octets, cursor);
        self.agree(|| format!("mvpn_step(afi {afi}, run {}, cursor {cursor})", encode(run.octets)), &archive, &second)?;
        self.coverage.count(Call::Step, Seen::Number(archive.number));
        match (archive.number, archive.layout.route_type) {
            (0, 0) => self.coverage.count(Call::Step, Seen::End),
            (0, route_type) => self.coverage.count(Call::Step, Seen::Route(route_type, afi)),
            _ => {}
        }
        Ok(archive)
    }

    pub fn walk<'a>(&mut self, afi: u16, mode: u32, run: impl Into<Input<'a>>) -> Result<Walked, Disagreement> {
        let run = run.into();
        self.lend(run);
        let archive = ffi::walk(afi, mode, &mut self.input);
        let second = self.second.answer_walk(afi, mode, run.octets);
        let shown = || format!("mvpn_walk(afi {afi}, mode {mode}, run {})", encode(run.octets));
        self.agree(shown, &archive, &second)?;
        self.coverage.count(Call::Walk, Seen::Number(archive.number));
        self.coverage.count(Call::Walk, Seen::Skipped(archive.skipped.min(3)));
        self.count_discarded(Call::Walk, afi, run.octets, &archive);
        Ok(archive)
    }

    /// How many of those that the walk of a run skipped were discarded.
    pub(super) fn count_discarded(&mut self, call: Call, afi: u16, run: &[u8], walked: &Walked) {
        if walked.skipped > 0 {
            let discarded = self.second.walk(afi, SKIP, run).discarded(run);
            self.coverage.count(call, Seen::Discarded(afi, discarded.min(3)));
        }
    }

    /// A walk in each mode.
    pub fn walk_both_ways<'a>(&mut self, afi: u16, run: impl Into<Input<'a>>) -> Checked {
        let run = run.into();
        [SKIP, OLD].into_iter().try_for_each(|mode| self.walk(afi, mode, run).map(drop))
    }

    /// A walk in each mode, and the steps that lead to the same end; a caller that skips goes on by the Length field.
    pub fn walk_by_steps(&mut self, afi: u16, run: &[u8]) -> Checked {
        [SKIP, OLD].into_iter().try_for_each(|mode| self.mode_by_steps(afi, mode, run))
    }

    fn mode_by_steps(&mut self, afi: u16, mode: u32, run: &[u8]) -> Checked {
        let walked = self.walk(afi, mode, run)?;
        let mut by_steps = Walked::default();
        let mut cursor = 0;
        loop {
            let stepped = self.step(afi, run, cursor)?;
            cursor = stepped.cursor;
            match (stepped.number, stepped.layout.route_type) {
                (2 | 19, _) if mode == SKIP => {
                    cursor += 2 + usize::from(run[cursor + 1]);
                    by_steps.skipped += 1;
                }
                (number, 0) => {
                    by_steps.number = number;
                    break;
                }
                _ => by_steps.count += 1,
            }
        }
        by_steps.offset = cursor as u32;
        match walked == by_steps {
            true => Ok(()),
            false => disagree(
                format!("walk and steps (afi {afi}, mode {mode}, run {})", encode(run)),
                format!("{walked:?}"),
                format!("{by_steps:?}"),
            ),
        }
    }

    /// The reading calls that take an AFI, on the same octets; the walk in one mode after the other.
    pub fn read_all_ways<'a>(&mut self, afi: u16, input: impl Into<Input<'a>>) -> Checked {
        let input = input.into();
        self.inputs += 1;
        self.nlri_read(afi, input)?;
        self.step(afi, input, 0)?;
        self.walk(afi, self.any_mode(), input).map(|_| ())
    }

    /// Another mode for each input, half of the time the one that skips.
    pub fn any_mode(&self) -> u32 {
        MODES[self.inputs as usize % MODES.len()]
    }
}
