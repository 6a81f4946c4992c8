//! What a table holds after a list of calls, told of each NLRI from the calls alone (demand 2, and document 02, W-208): the route of
//! its last accepted install since which it did not go, stale exactly when a mark of its originator was done since then.

use super::{
    calls::{TableAnswer, TableCall},
    memory::{image, size},
};
use crate::{
    ffi::{Installed, Restarted},
    second::{fault::Fault, Second},
};
use std::collections::BTreeMap;

/// A call that was made, and its answer.
pub type Made<'a> = (&'a TableCall<'a>, &'a TableAnswer);

impl Second {
    /// The image of what these calls, on a table just made, leave.
    pub fn left_by(&self, afi: u16, places: usize, made: &[Made]) -> Vec<u8> {
        let mut last: BTreeMap<&[u8], usize> = BTreeMap::new();
        for (at, (call, answer)) in made.iter().enumerate() {
            if let (TableCall::Install { nlri, .. }, TableAnswer::Installed(Installed { number: 0, .. })) =
                (call, answer)
            {
                last.insert(nlri, at);
            }
        }
        let held = last.into_iter().filter_map(|(nlri, at)| {
            let TableCall::Install { attribute, .. } = made[at].0 else { return None };
            let stale = self.since(afi, nlri, &made[at + 1..])?;
            Some((nlri.to_vec(), attribute.to_vec(), stale))
        });
        let held: Vec<_> = held.collect();
        image(afi, size(places), held.iter().map(|(nlri, attribute, stale)| (nlri, attribute, *stale)))
    }

    /// Whether a route is stale after the calls since its last install; none where one of them took it out.
    fn since(&self, afi: u16, nlri: &[u8], made: &[Made]) -> Option<bool> {
        let mut stale = false;
        for (call, answer) in made {
            let (marks, goes) = match (**call, *answer) {
                (TableCall::Withdraw { nlri: withdrawn }, TableAnswer::Withdrawn(0)) => (false, withdrawn == nlri),
                (TableCall::Mark { router }, TableAnswer::Restarted(Restarted { number: 0, .. })) => {
                    let own = self.originates(afi, nlri, router);
                    (own, own && stale)
                }
                (TableCall::Sweep { router }, TableAnswer::Restarted(Restarted { number: 0, .. })) => {
                    (false, stale && self.originates(afi, nlri, router))
                }
                _ => (false, false),
            };
            if goes {
                return None;
            }
            stale |= marks && !self.has(Fault::LEFT_UNMARKED);
        }
        Some(stale)
    }
}
