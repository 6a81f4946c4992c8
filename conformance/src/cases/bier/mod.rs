//! Bit strings of BIER packets: written examples, strings that are made, and refusals.

pub mod examples;
pub mod refusals;
pub mod strings;
