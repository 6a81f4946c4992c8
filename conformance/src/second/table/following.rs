//! Looking into a table: the route that comes next after an NLRI, and what the table holds.

use super::memory::Table;
use crate::{
    ffi::{Following, TableInfo},
    second::{fault::Fault, matches::choice::LEAST_OUTPUT, number::Number, Second},
};
use std::cmp::Ordering;

/// An NLRI and its attribute.
type Held = (Vec<u8>, Vec<u8>);

impl Second {
    /// The next route after any octets, and the output afterwards. TABLE, SPACE.
    pub fn answer_next(&self, memory: &[u8], nlri: &[u8], output: &[u8]) -> (Following, Vec<u8>) {
        let mut after = output.to_vec();
        match self.next(memory, nlri, output.len()) {
            Ok(None) => {
                if self.has(Fault::NEXT_NONE_CLEARS) {
                    after.fill(0);
                }
                (Following::default(), after)
            }
            Ok(Some(((nlri, attribute), stale))) => {
                let written = [&nlri[..], &attribute].concat();
                if !self.has(Fault::NEXT_UNWRITTEN) {
                    after[..written.len()].copy_from_slice(&written);
                }
                if self.has(Fault::NEXT_CLEARS) {
                    after[written.len()..].fill(0);
                }
                let [nlri_size, attribute_size] = [nlri, attribute].map(|octets| octets.len() as u32);
                let stale = (stale && !self.has(Fault::NEXT_WITHOUT_MARK)).into();
                (Following { number: 0, nlri_size, attribute_size, stale }, after)
            }
            Err(number) => (Following { number: number.value(), ..Default::default() }, after),
        }
    }

    /// The next route, and whether it is stale.
    fn next(&self, memory: &[u8], nlri: &[u8], room: usize) -> Result<Option<(Held, bool)>, Number> {
        let small = room < LEAST_OUTPUT && !self.has(Fault::NEXT_SPACE_WHEN_NEEDED);
        if small && self.has(Fault::NEXT_SPACE_FIRST) {
            return Err(Number::Space);
        }
        let table = self.table(memory)?;
        if self.has(Fault::NEXT_READS_NLRI) && !nlri.is_empty() {
            self.s_pmsi(table.afi, nlri)?;
        }
        if small {
            return Err(Number::Space);
        }
        let stale = table.stale.clone();
        match self.behind(table, nlri) {
            // Only under `NextSpaceWhenNeeded` has a smaller output come this far.
            Some((nlri, attribute)) if nlri.len() + attribute.len() > room => Err(Number::Space),
            follows => Ok(follows.map(|follows| {
                let told = if self.has(Fault::NEXT_MARK_OF_ASKED) { nlri } else { &follows.0 };
                let marked = stale.contains(told);
                (follows, marked)
            })),
        }
    }

    /// All routes, and among them the octets asked about, without an attribute; when they are sorted, the route behind these.
    fn behind(&self, table: Table, asked: &[u8]) -> Option<Held> {
        let unheld = !asked.is_empty() && !table.routes.contains_key(asked);
        if unheld && self.has(Fault::NEXT_HELD_ONLY) || asked.is_empty() && self.has(Fault::NEXT_EMPTY_NONE) {
            return None;
        }
        let mut routes: Vec<Held> = table.routes.into_iter().collect();
        if self.has(Fault::NEXT_LAST_LOST) {
            routes.pop();
        }
        if self.has(Fault::NEXT_PASSES_NO_TUNNEL) {
            routes.retain(|(_, attribute)| self.names_tunnel(attribute));
        }
        if self.has(Fault::NEXT_PASSES_MARKED) {
            routes.retain(|(nlri, _)| !table.stale.contains(nlri));
        }
        let first = routes.first().cloned();
        let mut rows: Vec<_> = routes.into_iter().map(|(nlri, attribute)| (nlri, Some(attribute))).collect();
        // The sort is stable: the octets asked about stand behind a route that has them.
        let at = if self.has(Fault::NEXT_SAME) { 0 } else { rows.len() };
        rows.insert(at, (asked.to_vec(), None));
        rows.sort_by(|(left, _), (right, _)| self.order(left, right));
        let mut behind = rows.into_iter().skip_while(|(_, attribute)| attribute.is_some());
        match behind.find_map(|(nlri, attribute)| Some((nlri, attribute?))) {
            _ if self.has(Fault::NEXT_FIRST) => first,
            None if self.has(Fault::NEXT_WRAPS) => first,
            next => next,
        }
    }

    /// Octet by octet.
    fn order(&self, left: &[u8], right: &[u8]) -> Ordering {
        if self.has(Fault::NEXT_BY_SIZE) {
            return (left.len(), left).cmp(&(right.len(), right));
        }
        if self.has(Fault::NEXT_BY_COMMON_FRONT) {
            let common = left.len().min(right.len());
            return left[..common].cmp(&right[..common]);
        }
        if self.has(Fault::NEXT_SIGNED) {
            return left.iter().map(|octet| *octet as i8).cmp(right.iter().map(|octet| *octet as i8));
        }
        if self.has(Fault::NEXT_BY_BODY) {
            return left.get(2..).cmp(&right.get(2..));
        }
        left.cmp(right)
    }

    /// TABLE, or the family, the places and the routes of a sound table.
    pub fn answer_table_info(&self, memory: &[u8]) -> TableInfo {
        match self.table(memory) {
            Ok(Table { afi, places, routes, stale }) => {
                let named = routes.values().filter(|attribute| self.names_tunnel(attribute)).count();
                let routes = match routes.len() {
                    _ if self.has(Fault::INFO_PLACES_FOR_ROUTES) => places,
                    _ if self.has(Fault::INFO_ROUTES_WITH_TUNNEL) => named,
                    all if self.has(Fault::INFO_ROUTES_UNMARKED) => all - stale.len(),
                    routes => routes,
                };
                let places = if self.has(Fault::INFO_FREE_PLACES) { places - routes.min(places) } else { places };
                TableInfo { number: 0, afi: afi.into(), places: places as u32, routes: routes as u32 }
            }
            Err(number) => {
                let refusal = TableInfo { number: number.value(), ..Default::default() };
                let afi = memory.get(5).copied().unwrap_or(0);
                match self.has(Fault::INFO_OF_UNSOUND) {
                    true => TableInfo { afi: afi.into(), ..refusal },
                    false => refusal,
                }
            }
        }
    }
}
