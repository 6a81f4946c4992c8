//! NLRIs one behind the other: steps and walks, runs that arrive in pieces, and the listing program's text.

pub mod listing;
pub mod pieces;
pub mod run;
