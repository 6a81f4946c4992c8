//! NLRIs one behind the other: unknown types between them, runs in pieces, and the listing program.

pub mod listing;
pub mod pieces;
pub mod skips;
