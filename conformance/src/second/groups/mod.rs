//! The class of a customer group, and the prefixes that decide it.

pub mod class;
pub mod prefixes;
