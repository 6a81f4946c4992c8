//! The text of the listing program (document 01, "Marked examples"; document 02, W-206 and W-210): an AFI 1 run, one line for each NLRI
//! that is read.

use super::run::{OLD, SKIP};
use crate::second::{fault::Fault, nlri::rows::SOURCE_ACTIVE, number::Number, Second};
use std::iter::once;

impl Second {
    /// What the program prints for its arguments and its standard input.
    pub fn listing(&self, arguments: &[&[u8]], run: &[u8]) -> String {
        let old = match arguments {
            [only] => *only == b"old" || self.has(Fault::LISTED_OLD_FRONT) && only.starts_with(b"old"),
            others => others.contains(&&b"old"[..]) && self.has(Fault::LISTED_OLD_ANYWHERE),
        };
        let walk = self.in_listing().walk(1, if old { OLD } else { SKIP }, run);
        let done = walk.number == Number::Done;
        let mut last = vec![walk.offset(), walk.number.value() as usize];
        let told = match old {
            true => self.has(Fault::LISTED_FIGURE_IN_OLD),
            false => done || !self.has(Fault::LISTED_FIGURE_AT_END),
        };
        let untold = if self.has(Fault::DISCARD_UNTOLD) { walk.discarded(run) } else { 0 };
        last.extend(told.then(|| walk.skipped() - untold));
        let is_listed =
            |offset| self.has(Fault::LISTED_SKIPPED) || self.has(Fault::DISCARD_LISTED) && run[offset] == SOURCE_ACTIVE;
        let last: String = last.iter().map(|figure| format!(" {figure}")).collect();
        let lines = walk.places().filter_map(|(offset, stretch)| match &stretch.reading {
            Some(nlri) => Some(format!("{offset} {} {}\n", nlri.route_type, nlri.length)),
            None => is_listed(offset).then(|| format!("{offset} {} {}\n", run[offset], run[offset + 1])),
        });
        let last = once(format!("{}{last}\n", if done { "end" } else { "stop" }));
        once("MVT list 1\n".to_string()).chain(lines).chain(last).collect()
    }
}
