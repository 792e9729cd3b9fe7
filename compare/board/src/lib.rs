//! The library `libboard.a` held against the engine, in one process.
//!
//! | file | subject |
//! |---|---|
//! | `ffi` | the library's six functions |
//! | `pack` | the engine's tables as the library's bytes, and back |
//! | `harm` | bytes changed, fields exchanged, another form or length, noise |
//! | `ask` | a console line for given tables |
//! | `show` | tables and answers in print |
//! | `tables` | one line on any tables: both sides |
//! | `text` | a whole text: both sides |
//! | `pages` | a page read back: both sides |
//! | `desk` | two texts at the reading desk: both sides |
//! | `natural` | the engine as a program that tests its tables at every line |
//! | `load` | texts, pages and pairs whose speed is measured |
//! | `looks` | both sides of the desk, to be timed |
//! | `clock` | rounds, medians and ratios |
//! | `words` | what stands on the command line |

#![deny(unsafe_code)]

pub mod ask;
pub mod clock;
pub mod desk;
#[allow(unsafe_code)]
pub mod ffi;
pub mod harm;
pub mod load;
pub mod looks;
pub mod natural;
pub mod pack;
pub mod pages;
pub mod show;
pub mod tables;
pub mod text;
pub mod words;
