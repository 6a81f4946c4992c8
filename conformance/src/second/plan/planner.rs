//! What is asked of a planner (document 02, W-214). What it proposes is its own choice: it is not foretold but judged, and counted.

use super::wish::{Asked, Beside, Wish};
use crate::{
    ffi::Planned,
    hexadecimal::encode,
    second::{
        fault::Fault,
        number::Number,
        table::{memory::PLACE, salvage::is_zero},
        Second,
    },
};
use std::collections::BTreeSet;

impl Second {
    /// What a planner refuses, given so much room.
    pub fn plan_refusal(&self, wish: &Wish, room: usize) -> Option<Number> {
        match self.asked(wish, Beside::Room(room)) {
            Ok(asked) => self.wish_refusal(&asked),
            Err(number) => Some(number),
        }
    }

    /// None for no flows; else one more than the different flows that do not want the commonest attribute.
    pub(super) fn most(&self, asked: &Asked) -> usize {
        let different = asked.different();
        let attributes: BTreeSet<&[u8]> = different.values().copied().collect();
        let wanting = |attribute: &&[u8]| different.values().filter(|wanted| *wanted == attribute).count();
        let commonest = attributes.iter().map(wanting).max();
        match commonest {
            None => 0,
            Some(_) if self.has(Fault::PLAN_MOST_BY_ATTRIBUTES) => attributes.len(),
            Some(commonest) if self.has(Fault::PLAN_MOST_WITHOUT_ONE) => different.len() - commonest,
            Some(commonest) => different.len() - commonest + 1,
        }
    }

    /// The most routes that a planner may propose for a wish that it does not refuse.
    pub fn most_routes(&self, wish: &Wish) -> usize {
        self.asked(wish, Beside::Room(0)).map_or(0, |asked| self.most(&asked))
    }

    /// What is wrong with what a planner answered and left in its output, which held `before`: of a refusal the number, and an octet that
    /// was changed; else too many routes, octets past their places that were changed, a place with a mark, a proposal that is not accepted.
    pub fn wrong_plan(&self, wish: &Wish, before: &[u8], planned: Planned, after: &[u8]) -> Option<String> {
        if let Some(number) = self.plan_refusal(wish, before.len()) {
            let cleared = vec![0; before.len()];
            let left = if self.has(Fault::PLAN_REFUSAL_CLEARS) { &cleared } else { before };
            let asked = Planned { number: number.value(), routes: 0 };
            return (planned != asked || after != left).then(|| format!("{asked:?}, output {}", encode(left)));
        }
        let most = self.most_routes(wish);
        let routes = planned.routes as usize;
        if planned.number != 0 || routes > most || PLACE * routes > after.len() {
            return Some(format!("DONE, and at most {most} routes"));
        }
        let (places, rest) = after.split_at(PLACE * routes);
        let kept = match self.has(Fault::PLAN_REST_CLEARED) {
            true => is_zero(rest),
            false => rest == &before[places.len()..],
        };
        if !kept {
            return Some(format!("octets past the {routes} routes as they were"));
        }
        let mark = u8::from(self.has(Fault::PLAN_MARKS));
        if places.chunks(PLACE).any(|place| place[PLACE - 1] != mark) {
            return Some(format!("places with marks of {mark}"));
        }
        match self.judged(wish, places) {
            Ok(None) => None,
            judged => Some(format!("routes that are accepted, and not {judged:?}")),
        }
    }
}
