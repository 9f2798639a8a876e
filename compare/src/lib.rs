//! The proved library and the proved program, as compare and bench call them.

#![deny(unsafe_code)]

pub mod program;
pub mod proved;
