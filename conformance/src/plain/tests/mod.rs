//! The plain calls on answers written from the documents, and beside the second decoder.

mod bier;
mod encodings;
mod plan;
mod salvage;
mod shared;
mod table;
