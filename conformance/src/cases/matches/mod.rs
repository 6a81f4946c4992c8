//! The route that a flow takes: matches, explanations, routes without a tunnel, and what a change disturbs.

pub mod disturbance;
pub mod explanations;
pub mod flows;
pub mod no_tunnel;
