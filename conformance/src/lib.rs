//! An independent second decoder for MCAST-VPN NLRI and the PMSI Tunnel attribute, a second route table with each router's
//! book, and the comparison of the archive `libmvpn.a` with them.

pub mod cases;
pub mod compare;
pub mod coverage;
pub mod ffi;
pub mod hexadecimal;
pub mod lent;
pub mod options;
pub mod plain;
pub mod random;
pub mod second;
