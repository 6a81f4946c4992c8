//! Routes that are kept while their router restarts (RFC 4724; document 02, W-208): mark and sweep, over sets of NLRIs.

use super::{
    calls::TableAnswer,
    memory::{Stale, Table},
};
use crate::{
    ffi::Restarted,
    second::{fault::Fault, nlri::rows::Family, number::Number, Second},
};

impl Second {
    /// What mark and sweep refuse for their argument alone: FLOW.
    pub(super) fn restarting(&self, afi: u16, router: &[u8]) -> Result<(), Number> {
        let of_family = self.family(afi).is_ok_and(|family| Family::octets(family) == router.len());
        let good = match router.len() {
            _ if self.has(Fault::RESTART_OF_FAMILY) => of_family,
            4 | 16 => true,
            0 => self.has(Fault::RESTART_OF_NO_OCTETS),
            _ => self.has(Fault::RESTART_SIZE_UNJUDGED),
        };
        match good {
            true => Ok(()),
            false => Err(Number::Flow),
        }
    }

    /// The router's marked routes go, and its others are marked.
    pub(in crate::second) fn mark(&self, table: &mut Table, router: &[u8]) -> Result<usize, Number> {
        self.restarting(table.afi, router)?;
        let own = self.own(table, router, Fault::MARK_OF_ALL)?;
        let marked = &own & &table.stale;
        let (gone, stale) = match () {
            _ if self.has(Fault::MARK_IDLE) => (Stale::new(), table.stale.clone()),
            _ if self.has(Fault::MARK_LEAVES_MARKED) => (Stale::new(), &table.stale | &own),
            _ if self.has(Fault::MARK_UNMARKS) => (Stale::new(), &table.stale ^ &own),
            _ if self.has(Fault::MARK_TAKES_ALL_MARKED) => (table.stale.clone(), &own - &marked),
            _ if self.has(Fault::MARK_ONLY_SWEEPS) => (marked.clone(), &table.stale - &own),
            _ => (marked.clone(), &table.stale ^ &own),
        };
        let told = match () {
            _ if self.has(Fault::MARK_COUNTS_MARKED) => own.len() - marked.len(),
            _ if self.has(Fault::MARK_UNCOUNTED) => 0,
            _ => gone.len(),
        };
        go(table, &gone, stale);
        Ok(told)
    }

    /// The router's marked routes go.
    pub(in crate::second) fn sweep(&self, table: &mut Table, router: &[u8]) -> Result<usize, Number> {
        self.restarting(table.afi, router)?;
        let own = self.own(table, router, Fault::SWEEP_OF_ALL)?;
        let marked = &own & &table.stale;
        let (gone, stale) = match () {
            _ if self.has(Fault::SWEEP_IDLE) => (Stale::new(), table.stale.clone()),
            _ if self.has(Fault::SWEEP_UNMARKED) => (own.clone(), &table.stale - &own),
            _ if self.has(Fault::SWEEP_UNMARKS) => (Stale::new(), &table.stale - &own),
            _ if self.has(Fault::SWEEP_MARKS) => (marked.clone(), &table.stale ^ &own),
            _ if self.has(Fault::SWEEP_ONE) => (marked.iter().take(1).cloned().collect(), table.stale.clone()),
            _ => (marked.clone(), &table.stale - &own),
        };
        let told = match () {
            _ if self.has(Fault::SWEEP_COUNTS_OWN) => own.len(),
            _ if self.has(Fault::SWEEP_COUNTS_LEFT) => table.routes.len() - gone.len(),
            _ => gone.len(),
        };
        go(table, &gone, stale);
        Ok(told)
    }

    /// The NLRIs of the router's routes. `of_all` is the fault that takes every router's.
    fn own(&self, table: &Table, router: &[u8], of_all: Fault) -> Result<Stale, Number> {
        let own = |nlri: &&Vec<u8>| self.originates(table.afi, nlri, router) || self.has(of_all);
        let own: Stale = table.routes.keys().filter(own).cloned().collect();
        match own.is_empty() && self.has(Fault::RESTART_ABSENT) {
            true => Err(Number::Absent),
            false => Ok(own),
        }
    }

    pub(in crate::second) fn restarted(&self, gone: Result<usize, Number>) -> TableAnswer {
        TableAnswer::Restarted(match gone {
            Ok(gone) if self.has(Fault::GONE_LOW_OCTET) => Restarted { number: 0, gone: (gone % 256) as u32 },
            Ok(gone) => Restarted { number: 0, gone: gone as u32 },
            Err(number) => Restarted { number: number.value(), gone: 0 },
        })
    }
}

/// Takes these routes out. The others that are stale afterwards are among `stale`.
fn go(table: &mut Table, gone: &Stale, stale: Stale) {
    table.routes.retain(|nlri, _| !gone.contains(nlri));
    table.stale = &stale - gone;
}
