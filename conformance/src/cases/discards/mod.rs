//! Source Active routes for SSM groups, which are discarded: written examples, and every call that meets one.

pub mod calls;
pub mod examples;
