//! The PMSI Tunnel attribute: the form of each tunnel type's identifier, reading and writing.

pub mod forms;
pub mod reading;
pub mod writing;
