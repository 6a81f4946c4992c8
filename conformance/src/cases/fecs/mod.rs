//! The route types of mLDP customers and FEC elements that hold others: written examples, and elements of every depth.

pub mod elements;
pub mod examples;
