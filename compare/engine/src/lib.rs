//! A second, independent engine of the executive that the outline (docs/OUTLINE.md) lays down.
//!
//! It keeps no links. Each program record has its state, its priority and the number of its last
//! entry into a chain, and every chain is sorted out afresh whenever one is needed. It is meant to
//! read like the outline, so that the proved engine can be checked against it.
//!
//! | file | section of the outline |
//! |---|---|
//! | `tables` | The tables |
//! | `answer` | Answer numbers |
//! | `operator` | Operator requests |
//! | `exec`, `tracks`, `numbers` | Calls of the running program |
//! | `waking` | Ending and waking |
//! | `page`, `line`, `sheet` | The page and the console line |
//! | `operator`, `waking` | SS of a program that waits, and its waking: request (ii) |
//! | `ticks` | many ticks at once: request (iii) |
//! | `calendar` | years by the Gregorian rule: request (iv) |
//! | `read` | a page read back: request (i) |
//! | `desk` | a line found, and lines that differ, in two texts: request (xii) |
//! | `follow` | whether the next sheet can follow: the program `follow` |
//! | `raw`, `sound` | the tables as a caller could hand them in, and when they are sound |

pub mod answer;
pub mod calendar;
pub mod desk;
pub mod exec;
pub mod follow;
pub mod line;
pub mod numbers;
pub mod operator;
pub mod page;
pub mod raw;
pub mod read;
pub mod sheet;
pub mod sound;
pub mod tables;
pub mod ticks;
pub mod tracks;
pub mod waking;

pub use answer::{Answer, Outcome, Value};
pub use desk::{Desk, Found, Mark};
pub use follow::{follow, File};
pub use line::{parse, Request};
pub use numbers::Kind;
pub use raw::Raw;
pub use read::read;
pub use sheet::sheet;
pub use tables::{Engine, Holder, Name, Number, Program, Timer, Why};
