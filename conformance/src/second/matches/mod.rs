//! Which route a flow or a shared tree takes, why, and what a change of the table does to that answer.

pub mod choice;
pub mod disturbance;
pub mod reasons;
pub mod shared;
