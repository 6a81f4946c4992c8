//! The inputs of the comparison, in the order they are given.

pub mod bier;
pub mod discards;
pub mod document;
pub mod encodings;
pub mod fecs;
pub mod inputs;
pub mod matches;
pub mod plan;
pub mod prefixes;
pub mod runs;
pub mod shared;
pub mod table;

use crate::{
    compare::{Checked, Harness},
    options::Options,
    random::Random,
    second::table::calls::TableCall,
};

/// Runs every kind of case; stops at the first disagreement.
pub fn all(harness: &mut Harness, options: &Options) -> Checked {
    of_encodings(harness, options)?;
    of_skips(harness, options)?;
    of_fecs(harness, options)?;
    of_pieces(harness, options)?;
    of_discards(harness, options)?;
    of_shared_trees(harness, options)?;
    of_bier(harness, options)?;
    of_following(harness, options)?;
    of_salvage(harness, options)?;
    of_explanations(harness, options)?;
    of_plans(harness, options)?;
    of_restarts(harness, options)?;
    of_prefixes(harness, options)?;
    of_disturbance(harness, options)?;
    of_splitting(harness, options)?;
    of_tables(harness, options)
}

/// The calls that read and write, and the listing program. The kinds that have few cases come first, so that most faults are
/// found soon.
pub fn of_encodings(harness: &mut Harness, options: &Options) -> Checked {
    let mut random = Random::new(options.seed);
    document::all(harness)?;
    encodings::outside::all(harness, options.outside)?;
    encodings::groups::all(harness, &mut random)?;
    encodings::limits::all(harness, &mut random)?;
    encodings::attribute_writing::all(harness, &mut random)?;
    encodings::nlri_writing::all(harness, &mut random)?;
    encodings::mutations::all(harness)?;
    encodings::headers::all(harness, &mut random)?;
    encodings::random_cases::all(harness, &mut random, options.cases)?;
    match &options.listing {
        Some(program) => runs::listing::all(harness, &mut random, program),
        None => Ok(()),
    }
}

/// Unknown route types.
pub fn of_skips(harness: &mut Harness, options: &Options) -> Checked {
    runs::skips::all(harness, &mut Random::new(options.seed), options.cases)
}

/// FEC elements in NLRIs.
pub fn of_fecs(harness: &mut Harness, options: &Options) -> Checked {
    fecs::elements::all(harness, &mut Random::new(options.seed), options.cases)
}

/// Runs that arrive in pieces.
pub fn of_pieces(harness: &mut Harness, options: &Options) -> Checked {
    runs::pieces::all(harness, &mut Random::new(options.seed), options.cases)
}

/// Source Active routes for SSM groups, which are discarded: in every call that reads or writes an NLRI.
pub fn of_discards(harness: &mut Harness, options: &Options) -> Checked {
    discards::calls::all(harness, &mut Random::new(options.seed), options.cases)
}

/// The match for shared trees alone.
pub fn of_shared_trees(harness: &mut Harness, options: &Options) -> Checked {
    matches::no_tunnel::shared_trees(harness)?;
    shared::matches::all(harness, &mut Random::new(options.seed), options.cases)
}

/// Bit strings of BIER packets.
pub fn of_bier(harness: &mut Harness, options: &Options) -> Checked {
    bier::strings::all(harness, &mut Random::new(options.seed), options.cases)
}

/// Looking into a table.
pub fn of_following(harness: &mut Harness, options: &Options) -> Checked {
    table::following::all(harness, &mut Random::new(options.seed))
}

/// Salvage of a damaged table.
pub fn of_salvage(harness: &mut Harness, options: &Options) -> Checked {
    table::salvage::all(harness, &mut Random::new(options.seed), options.cases)
}

/// Explanations alone.
pub fn of_explanations(harness: &mut Harness, options: &Options) -> Checked {
    matches::explanations::all(harness, &mut Random::new(options.seed))
}

/// Plans for flows: the judge and the planner.
pub fn of_plans(harness: &mut Harness, options: &Options) -> Checked {
    plan::plans::all(harness, &mut Random::new(options.seed), options.cases)
}

/// Routers that restart.
pub fn of_restarts(harness: &mut Harness, options: &Options) -> Checked {
    table::restarts::all(harness, &mut Random::new(options.seed), options.cases)
}

/// Prefixes for source-specific groups, in the class call and in matches of every kind.
pub fn of_prefixes(harness: &mut Harness, options: &Options) -> Checked {
    prefixes::classes::all(harness, &mut Random::new(options.seed), options.cases)
}

/// What one change of a table disturbs, and who asks again after it.
pub fn of_disturbance(harness: &mut Harness, options: &Options) -> Checked {
    matches::disturbance::all(harness, &mut Random::new(options.seed), options.cases)
}

/// Routes in several tables.
pub fn of_splitting(harness: &mut Harness, options: &Options) -> Checked {
    table::splitting::all(harness, &mut Random::new(options.seed), options.cases)
}

/// The table calls, mixed ones with matches for shared trees among them.
pub fn of_tables(harness: &mut Harness, options: &Options) -> Checked {
    let mut random = Random::new(options.seed);
    document::tables(harness)?;
    matches::no_tunnel::examples(harness)?;
    matches::flows::all(harness, &mut random, |flow, output| TableCall::Match { flow, output })?;
    table::memory::all(harness, &mut random)?;
    matches::no_tunnel::flows(harness, 2, |flow, output| TableCall::Match { flow, output })?;
    table::sequences::all(harness, &mut random, options.cases)
}
