//! What the cases are made of: samples, octets near to well-formed ones, routes, lists, and the octets of tables, good and damaged.

pub mod damage;
pub mod lists;
pub mod near;
pub mod places;
pub mod routes;
pub mod samples;
