//! Scripts for the console, and the comparison of a `sheet` program with the engine on them; pages,
//! pairs of texts and runs of sheets, and the comparison of what is made of them.
//!
//! | file | subject |
//! |---|---|
//! | `prng` | numbers from a seed |
//! | `profile` | what one script is about: tables, names, priorities, weights |
//! | `wish` | lines that mean something in the present state |
//! | `claims` | the numbers of such lines: tracks, resource numbers, timers |
//! | `spoil` | lines that are nearly right, and lines that are not |
//! | `tangle` | an opening in which many wait for one program |
//! | `rota` | an opening in which timers come due at several moments of one line |
//! | `years` | start years, and an opening in which years end |
//! | `script` | a whole script from a seed |
//! | `marks` | who woke by what, marked or not, and how often |
//! | `leaps` | what `TICK,n` did, and how often |
//! | `turns` | start years and times, and how often |
//! | `corners` | fixed inputs |
//! | `forms` | fixed inputs made from the forms of a line |
//! | `knots` | a fixed input with every way to wake, marked or not |
//! | `nights` | fixed inputs with many ticks at once, up to the ceiling |
//! | `damage` | tables that are not sound |
//! | `make` | sound tables: some that a run reaches, some that none does |
//! | `pages` | pages from a seed |
//! | `twist` | well-formed pages that say something else |
//! | `blot` | pages that are not well formed |
//! | `absurd` | pages with absurd counts, and fixed ones |
//! | `reading` | the comparison of a page reader with the engine's, on pages |
//! | `texts` | pairs of texts from a seed |
//! | `miscopy` | what may happen to a text while it is copied |
//! | `asks` | what is asked of a reading desk on a pair |
//! | `looking` | the comparison of a reading desk with the engine's, on pairs |
//! | `tally` | how often what came up there |
//! | `filed` | the comparison of a `desk` program with the engine, on pairs in files |
//! | `sheets` | runs of sheets from a seed: a page, requests, the next page, and so on |
//! | `slip` | pages in which one thing is another, and which are pages all the same |
//! | `nooks` | fixed runs of sheets |
//! | `following` | the comparison of a `follow` program with the engine, on runs of sheets in files |
//! | `verdicts` | how often what came up there |
//! | `other` | the program, or the wrong engine, that is compared |
//! | `differ` | batches of scripts, and the first difference |
//! | `shrink` | a shorter script that still fails |
//! | `report` | a difference in print |

pub mod absurd;
pub mod asks;
pub mod blot;
pub mod claims;
pub mod corners;
pub mod damage;
pub mod differ;
pub mod filed;
pub mod following;
pub mod forms;
pub mod knots;
pub mod leaps;
pub mod looking;
pub mod make;
pub mod marks;
pub mod miscopy;
pub mod nights;
pub mod nooks;
pub mod other;
pub mod pages;
pub mod prng;
pub mod profile;
pub mod reading;
pub mod report;
pub mod rota;
pub mod script;
pub mod sheets;
pub mod shrink;
pub mod slip;
pub mod spoil;
pub mod tally;
pub mod tangle;
pub mod texts;
pub mod turns;
pub mod twist;
pub mod verdicts;
pub mod wish;
pub mod years;

use std::ops::Range;

/// The seeds that the tests use and that `compare run` takes unless it is told others. Within
/// them, and in the fixed inputs, every wrong engine is found but those of `faults::ON_TABLES`.
pub const CI_SEEDS: Range<u64> = 1..841;

/// Lines per script.
pub const CI_LINES: usize = 250;
