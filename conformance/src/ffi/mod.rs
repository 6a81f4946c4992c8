//! The C interface of the archive (`mvpn.h`), declared by hand: its structs, its calls, and a safe function for each call.

mod calls;
pub mod raw;
mod types;

pub use calls::*;
pub use types::*;
