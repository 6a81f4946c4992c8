//! Route tables: their octets, the calls on them, each router's book, what calls leave, salvage, and routes in several tables.

pub mod books;
pub mod calls;
pub mod following;
pub mod history;
pub mod memory;
pub mod restarts;
pub mod salvage;
pub mod splitting;
