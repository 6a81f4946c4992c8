//! Who must get a BIER packet: the call and what it refuses, the Leaves that count, and the string that they make.

pub mod leaves;
pub mod packet;
pub mod string;
