//! All tests that look at the library from outside.
//!
//! `plain` is document 01 read word for word, with no thought of speed; the
//! library is compared with it wherever the documents give no figures. `calls`
//! lends each call rooms full of marks and sees that nothing else was touched.

// Loops over lines and values read best as the documents count.
#![allow(clippy::needless_range_loop)]

mod any_input;
mod boards;
mod calls;
mod cascades;
mod choice;
mod digests;
mod examples;
mod files;
mod hard;
mod helpers;
mod listing;
mod names;
mod plain;
mod program;
mod published;
mod refusals;
mod refusals_of_files;
mod serial;
mod steps;
mod synthesis;
mod tidying;
mod vectors;
