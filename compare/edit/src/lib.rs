//! Changes of the engine's sources, and many changed engines in one.
//!
//! | file | subject |
//! |---|---|
//! | `files` | the sources of a folder |
//! | `lexer` | a source in tokens, and the bodies of its functions |
//! | `change` | one change of a source |
//! | `list` | wrong engines as a person writes them down |
//! | `many` | all changes within functions in one source, one engine chosen when it runs |

pub mod change;
pub mod files;
pub mod lexer;
pub mod list;
pub mod many;
