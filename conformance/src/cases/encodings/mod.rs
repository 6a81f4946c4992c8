//! One NLRI, attribute or group: read and written, well-formed, changed and random.

pub mod attribute_writing;
pub mod groups;
pub mod headers;
pub mod limits;
pub mod mutations;
pub mod nlri_writing;
pub mod outside;
pub mod random_cases;
