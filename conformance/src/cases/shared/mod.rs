//! Matches for shared trees: written examples, the conditions and routes, and refusals.

pub mod examples;
pub mod matches;
pub mod refusals;
