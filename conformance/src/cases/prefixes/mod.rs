//! Prefixes for source-specific groups: written examples, the class call, and matches by them.

pub mod classes;
pub mod examples;
pub mod matches;
