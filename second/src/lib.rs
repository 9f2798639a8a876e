//! Reversible ternary logic: tables into cascades, and what one does with cascades.
//!
//! This is the second of two implementations that share nothing but their
//! documents. One module stands for each section of document 01, and behind these one
//! for each of orders 1 and 4 of document 02. Order 2, on boards, is part of [`cascade`]:
//!
//! | module        | section                                                        |
//! |---------------|----------------------------------------------------------------|
//! | [`answer`]    | The refusal card                                               |
//! | [`pattern`]   | Patterns, tables, gates: line counts, patterns and their digits |
//! | [`table`]     | Patterns, tables, gates: what table is a permutation           |
//! | [`gate`]      | Patterns, tables, gates: operators and gate records            |
//! | [`cascade`]   | check, run, invert; The price of a gate, on any board          |
//! | [`tabulating`] | what a cascade computes, as a table                           |
//! | [`synthesis`] | From table to cascade                                          |
//! | [`tidying`]   | Tidying                                                        |
//! | [`choice`]    | The cheaper of two                                             |
//! | [`file`](mod@file) | The cascade file                                          |
//! | [`listing`](mod@listing) | From table to cascade: the printed text             |
//! | [`sheet`](mod@sheet) | From table to cascade: the program                      |
//! | [`names`]     | Lists in the other school's names                              |
//! | [`serial`]    | Tables over the serial lead                                    |
//!
//! Every call takes any bytes and any numbers. It answers a value or a
//! [`Refusal`](answer::Refusal), and a refused call leaves all lent memory as it
//! was. Inside, a number of lines that has been checked is a `Lines`, a record
//! that has been checked is a `Gate`, a table a `Permutation`, bytes a `Cascade`:
//! what has one of these types needs no second look.
//!
//! The other modules are for comparing this library with the first: [`calls`] has
//! every call in one shape, [`feeding`] those of a reader one after the other,
//! [`vectors`] says how test cases are written and what they print, [`cases`](mod@cases)
//! lists them, [`digests`] sums up many tables and cascades, [`draws`] and [`hard`] make
//! some of these up, and [`turns`] is what a reader hands out, in print.

#![forbid(unsafe_code)]

pub mod answer;
pub mod calls;
pub mod cascade;
pub mod cases;
pub mod choice;
pub mod digests;
pub mod draws;
pub mod feeding;
pub mod file;
pub mod gate;
pub mod hard;
pub mod listing;
pub mod names;
pub mod pattern;
mod planes;
pub mod serial;
pub mod sheet;
mod standing;
pub mod synthesis;
pub mod table;
pub mod tabulating;
pub mod tidying;
pub mod turns;
pub mod vectors;
