//! Calls on a table: sound and other memory, looking into it, restarts, salvage, mixed calls, and several tables.

pub mod following;
pub mod memory;
pub mod restarts;
pub mod salvage;
pub mod sequences;
pub mod splitting;
