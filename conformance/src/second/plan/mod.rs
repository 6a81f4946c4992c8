//! Plans for flows: what is wished for and refused, the judge of what is proposed, and what is asked of a planner.

pub mod judge;
pub mod planner;
pub mod wish;
