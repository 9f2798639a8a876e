//! What tests and comparisons make up: numbers, tables, gates, and records and texts
//! that are wrong. All comes from a seed, the same each time. Nothing here knows either
//! library; a record is document 01's eight bytes.

#![forbid(unsafe_code)]

mod faults;
mod gates;
mod numbers;

pub use gates::inverse;
pub use numbers::Numbers;
