//! Each router's book, fed by that router's calls only (document 01, "Mixed calls and each router's book"; document 02, W-208
//! and W-209).

use super::{
    calls::{withdrawn, Outcome, TableAnswer, TableCall},
    memory::{image, size, Placed, Route},
};
use crate::second::{
    fault::Fault,
    matches::{choice::Flow, shared::Reception},
    nlri::rows::Field,
    number::Number,
    Second,
};
use std::collections::BTreeMap;

/// A router's address: equal in size and octets.
pub type Router = Vec<u8>;

/// A route's attribute, and the marks that its router had done before it was installed.
#[derive(Clone, Debug)]
struct Entry {
    attribute: Vec<u8>,
    before: u32,
}

/// A router's routes by NLRI, and the marks that it has done. A route is stale where a mark was done since its install.
#[derive(Clone, Debug, Default)]
struct Book {
    entries: BTreeMap<Vec<u8>, Entry>,
    marks: u32,
    /// The prefixes of the first match, which only a fault looks at.
    prefixes: Option<Vec<u8>>,
}

impl Book {
    fn routes(&self) -> impl Iterator<Item = Route<'_>> {
        self.entries.iter().map(|(nlri, entry)| (nlri, &entry.attribute))
    }

    fn placed(&self) -> impl Iterator<Item = Placed<'_>> {
        self.entries.iter().map(|(nlri, entry)| (nlri, &entry.attribute, entry.before < self.marks))
    }

    /// Gives the NLRI this attribute; whether the book held it. `keeps_mark` is for a fault.
    fn install(&mut self, nlri: &[u8], attribute: &[u8], keeps_mark: bool) -> bool {
        let held = self.entries.get(nlri);
        let before = held.filter(|_| keeps_mark).map_or(self.marks, |entry| entry.before);
        self.entries.insert(nlri.to_vec(), Entry { attribute: attribute.to_vec(), before }).is_some()
    }

    /// The stale routes go; how many they are.
    fn sweep(&mut self) -> usize {
        let before = self.entries.len();
        self.entries.retain(|_, entry| entry.before == self.marks);
        before - self.entries.len()
    }
}

/// The books of all routers that have called, for one table.
#[derive(Clone, Debug)]
pub struct Books {
    second: Second,
    afi: u16,
    places: usize,
    books: BTreeMap<Router, Book>,
}

impl Books {
    pub fn new(second: Second, afi: u16, places: usize) -> Self {
        Books { second, afi, places, books: BTreeMap::new() }
    }

    /// The answer that the call gets from its router's book; a call of nobody gets its refusal.
    pub fn answer(&mut self, call: &TableCall) -> TableAnswer {
        let Some(router) = self.second.router(self.afi, call) else {
            // Such a call has a bad NLRI or router address, so there is a refusal.
            let number = match self.second.refusal(self.afi, call) {
                Some(Number::Range | Number::Short) if self.second.has(Fault::PREFIXES_OF_NOBODY) => Number::Flow,
                number => number.unwrap_or(Number::Done),
            };
            return self.second.refused(call, number);
        };
        let second = self.second;
        let router = if second.has(Fault::ONE_BOOK) { Router::new() } else { router };
        second.in_book(self.afi, self.books.entry(router).or_default(), call)
    }

    /// The one image of the routes in all books, with their marks.
    pub fn image(&self) -> Vec<u8> {
        let mut routes: Vec<Placed> = self.books.values().flat_map(Book::placed).collect();
        routes.sort();
        image(self.afi, size(self.places), routes.into_iter())
    }
}

impl Second {
    /// The router that a call belongs to: the originator of a well-formed S-PMSI NLRI, the router that a match of either kind
    /// asks about, or the one that a mark or a sweep names; none for a call of nobody.
    pub fn router(&self, afi: u16, call: &TableCall) -> Option<Router> {
        match *call {
            TableCall::Install { nlri, .. } | TableCall::Withdraw { nlri } => {
                self.s_pmsi(afi, nlri).ok().map(|reading| reading.octets(Field::Originator).to_vec())
            }
            TableCall::Mark { .. } | TableCall::Sweep { .. } if self.has(Fault::RESTART_OF_NOBODY) => None,
            TableCall::Mark { router }
            | TableCall::Sweep { router }
            | TableCall::Match { flow: Flow { router, .. }, .. }
            | TableCall::Explain { flow: Flow { router, .. }, .. }
            | TableCall::MatchShared { reception: Reception { router, .. }, .. } => {
                matches!(router.len(), 4 | 16).then(|| router.to_vec())
            }
        }
    }

    /// A call of the book's router. A book has no places, so none of its installs lacks room.
    fn in_book(&self, afi: u16, book: &mut Book, call: &TableCall) -> TableAnswer {
        if let Some(number) = self.refusal(afi, call) {
            if let (TableCall::Install { nlri, attribute }, true) = (call, self.has(Fault::BOOK_TAKES_REFUSED)) {
                book.install(nlri, attribute, false);
            }
            return self.refused(call, number);
        }
        let judge = match () {
            _ if self.has(Fault::NO_TUNNEL_IN_BOOKS) => Second::with_fault(Fault::NO_TUNNEL_TAKEN),
            _ if self.has(Fault::PREFIXES_IGNORED_IN_BOOKS) => Second::with_fault(Fault::MATCHED_BY_STANDARD),
            _ => *self,
        };
        match *call {
            TableCall::Install { nlri, attribute } => {
                let replaced = book.install(nlri, attribute, self.has(Fault::BOOK_KEEPS_MARK));
                self.installed(Ok(if replaced { Outcome::Replaced } else { Outcome::New }))
            }
            TableCall::Withdraw { nlri } => withdrawn(book.entries.remove(nlri).map(drop).ok_or(Number::Absent)),
            TableCall::Mark { .. } => {
                let gone = book.sweep();
                book.marks += u32::from(!self.has(Fault::BOOK_UNMARKED));
                self.restarted(Ok(gone))
            }
            TableCall::Sweep { .. } => self.restarted(Ok(book.sweep())),
            TableCall::Match { flow, output } => {
                let prefixes = book.prefixes.get_or_insert_with(|| flow.prefixes.to_vec()).clone();
                let prefixes = if self.has(Fault::PREFIXES_KEPT_IN_BOOKS) { &prefixes } else { flow.prefixes };
                let flow = Flow { prefixes, ..flow };
                let choice = judge.choice(afi, &flow, output.len(), book.routes(), Fault::MATCHED_BY_STANDARD);
                self.matched(choice, output)
            }
            TableCall::Explain { flow, output } => {
                self.explained(self.explanation(afi, &flow, output.len(), book.routes().collect()), output)
            }
            TableCall::MatchShared { reception, output } => {
                self.matched(self.shared_choice(afi, &reception, output.len(), book.routes()), output)
            }
        }
    }
}
