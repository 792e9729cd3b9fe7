//! Wrong engines made by machine: one constant or one operator of the engine's sources changed at a
//! time.
//!
//! | file | subject |
//! |---|---|
//! | `sites` | the changes that a source allows |
//! | `programs` | the programs in which they are tried, and what these are given |
//! | `trial` | changed engines, built and tried |

pub mod programs;
pub mod sites;
pub mod trial;
