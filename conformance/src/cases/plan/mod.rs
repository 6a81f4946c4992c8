//! Plans for flows: written examples, proposals and wishes, and refusals.

pub mod examples;
pub mod plans;
pub mod refusals;
