//! Stepping and walking through a run of NLRIs (document 01, "NLRI on the wire"; document 02, W-206 and W-210).

use crate::second::{
    fault::Fault,
    nlri::{
        reading::Reading,
        rows::{Family, SOURCE_ACTIVE},
    },
    number::Number,
    Second,
};
use std::collections::VecDeque;

/// What a walk does where an NLRI is refused with TYPE or GROUP.
#[derive(Clone, Copy, Debug, PartialEq, Eq)]
pub enum Mode {
    /// Its Length field says where the next one begins.
    Skip,
    /// It stops.
    Old,
}

/// The number of the mode that skips; every other number is the old mode.
pub const SKIP: u32 = 0;
pub const OLD: u32 = 1;

/// A stretch of a run: an NLRI that was read, or one that was skipped.
#[derive(Clone, Debug, PartialEq, Eq)]
pub struct Stretch<'a> {
    pub size: usize,
    pub reading: Option<Reading<'a>>,
}

/// The stretches of a run from its front, and the number at their end.
#[derive(Clone, Debug, PartialEq, Eq)]
pub struct Walk<'a> {
    pub stretches: VecDeque<Stretch<'a>>,
    pub number: Number,
}

impl<'a> Walk<'a> {
    fn ended(number: Number) -> Self {
        Walk { stretches: VecDeque::new(), number }
    }

    /// This walk with a stretch in front of it.
    fn behind(mut self, size: usize, reading: Option<Reading<'a>>) -> Self {
        self.stretches.push_front(Stretch { size, reading });
        self
    }

    /// Each stretch with its offset.
    pub fn places(&self) -> impl Iterator<Item = (usize, &Stretch<'a>)> {
        let mut end = 0;
        self.stretches.iter().map(move |stretch| {
            end += stretch.size;
            (end - stretch.size, stretch)
        })
    }

    /// The NLRIs read, each with its offset.
    pub fn read(&self) -> impl Iterator<Item = (usize, &Reading<'a>)> {
        self.places().filter_map(|(offset, stretch)| Some((offset, stretch.reading.as_ref()?)))
    }

    pub fn skipped(&self) -> usize {
        self.stretches.iter().filter(|stretch| stretch.reading.is_none()).count()
    }

    /// Those skipped that are Source Active routes: they are discarded, and every other one is of an unknown type.
    pub fn discarded(&self, run: &[u8]) -> usize {
        let skipped = self.places().filter(|(_, stretch)| stretch.reading.is_none());
        skipped.filter(|(offset, _)| run[*offset] == SOURCE_ACTIVE).count()
    }

    /// The offset past the last stretch.
    pub fn offset(&self) -> usize {
        self.stretches.iter().map(|stretch| stretch.size).sum()
    }
}

impl Second {
    /// FAMILY, LONG.
    fn run_family(&self, afi: u16, run: &[u8]) -> Result<Family, Number> {
        let family = self.family(afi)?;
        let most = if self.has(Fault::LONG_LIMIT_4095) { 4_095 } else { 4_096 };
        match run.len() > most {
            true => Err(Number::Long),
            false => Ok(family),
        }
    }

    /// The NLRI at a cursor and the cursor past it; none at the run's end. FAMILY, LONG, then NLRI reading.
    pub fn step<'a>(&self, afi: u16, run: &'a [u8], cursor: usize) -> Result<Option<(Reading<'a>, usize)>, Number> {
        let family = self.run_family(afi, run)?;
        let rest = match run.get(cursor..) {
            Some(rest) => rest,
            None if self.has(Fault::STEP_PAST_END_DONE) => &[],
            None => return Err(Number::Short),
        };
        match rest {
            [] => Ok(None),
            [_, 0, ..] if self.has(Fault::ZERO_LENGTH_ENDS_RUN) => Ok(None),
            _ => match self.front(family, rest) {
                Err(Number::Type) if self.has(Fault::STEP_SKIPS) => self.step(afi, run, cursor + skipped_size(rest)),
                Err(Number::Group) if self.has(Fault::DISCARD_STEPPED) => {
                    self.step(afi, run, cursor + skipped_size(rest))
                }
                reading => {
                    let reading = reading?;
                    let next = run.len() - reading.after.len();
                    Ok(Some((reading, next)))
                }
            },
        }
    }

    pub fn mode(&self, number: u32) -> Mode {
        let number = if self.has(Fault::OLD_BY_LOW_OCTET) { number & 0xFF } else { number };
        match number {
            _ if self.has(Fault::SKIP_ALWAYS) => Mode::Skip,
            _ if self.has(Fault::SKIP_NEVER) => Mode::Old,
            SKIP => Mode::Skip,
            OLD => Mode::Old,
            _ if self.has(Fault::OLD_IS_ONE) => Mode::Skip,
            _ => Mode::Old,
        }
    }

    /// The run from its front to its end or to the refusal that stops the walk. FAMILY, LONG.
    pub fn walk<'a>(&self, afi: u16, mode: u32, run: &'a [u8]) -> Walk<'a> {
        match self.run_family(afi, run) {
            Ok(family) => self.walk_rest(family, self.mode(mode), run),
            Err(number) => Walk::ended(number),
        }
    }

    /// The walk of what is left: the stretch at its front, and behind that the walk of the rest.
    fn walk_rest<'a>(&self, family: Family, mode: Mode, rest: &'a [u8]) -> Walk<'a> {
        if rest.is_empty() || self.has(Fault::ZERO_LENGTH_ENDS_RUN) && matches!(rest, [_, 0, ..]) {
            return Walk::ended(Number::Done);
        }
        match self.front(family, rest) {
            Ok(reading) => {
                let (size, after) = (rest.len() - reading.after.len(), reading.after);
                self.walk_rest(family, mode, after).behind(size, Some(reading))
            }
            Err(number) if self.skips(mode, number, rest) => self.skip(family, mode, rest),
            Err(number) => Walk::ended(number),
        }
    }

    /// The walk of what is left where the NLRI at its front is skipped.
    fn skip<'a>(&self, family: Family, mode: Mode, rest: &'a [u8]) -> Walk<'a> {
        let discarded = rest[0] == SOURCE_ACTIVE;
        let size = match skipped_size(rest) {
            _ if self.has(Fault::SKIP_HEADER_ONLY) => 2,
            _ if discarded && self.has(Fault::DISCARD_HEADER_ONLY) => 2,
            size if self.has(Fault::SKIP_WITHOUT_HEADER) && size > 2 => size - 2,
            size => size.min(rest.len()),
        };
        let ends = self.has(Fault::SKIP_ENDS_RUN)
            || self.has(Fault::SKIP_LENGTH_0_ENDS) && size == 2
            || self.has(Fault::DISCARD_ENDS_RUN) && discarded;
        let behind = match ends {
            true => Walk::ended(Number::Done),
            false => self.walk_rest(family, mode, &rest[size..]),
        };
        behind.behind(size, None)
    }

    /// Whether an NLRI that is refused with this number is skipped: a whole one of a route type that is not known, or one that is
    /// discarded; in the old mode none.
    fn skips(&self, mode: Mode, number: Number, rest: &[u8]) -> bool {
        if mode == Mode::Old {
            return number == Number::Group && self.has(Fault::DISCARD_IN_OLD);
        }
        match (number, rest) {
            (Number::Group, _) => !self.has(Fault::DISCARD_STOPS),
            (Number::Type, [0, ..]) => !self.has(Fault::SKIP_NOT_TYPE_0),
            (Number::Type, _) => true,
            (Number::Short, [route_type, _, ..]) => {
                self.row(*route_type).is_none() && self.has(Fault::SKIP_PAST_THE_RUN)
            }
            (Number::Key, [_, _, key, _, ..]) => self.row(*key).is_none() && self.has(Fault::SKIP_INSIDE_KEY),
            (Number::Length | Number::Width | Number::Key | Number::Ident | Number::Deep, _) => {
                self.has(Fault::SKIP_ANY_REFUSAL)
            }
            _ => false,
        }
    }
}

/// The octets of an NLRI that is skipped, by its Length field.
fn skipped_size(rest: &[u8]) -> usize {
    2 + rest.get(1).copied().map_or(0, usize::from)
}
