//! One NLRI: the rows of its fields, reading, writing, the FEC elements in it, and those that are discarded.

pub mod discards;
pub mod fec;
pub mod reading;
pub mod rows;
pub mod writing;
