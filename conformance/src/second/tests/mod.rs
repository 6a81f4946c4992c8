//! The second decoder on answers written from the documents, and its parts beside each other.

mod bier;
mod discards;
mod encodings;
mod pieces;
mod plan;
mod prefixes;
mod salvage;
mod shared;
mod table;
