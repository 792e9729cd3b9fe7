//! All changes within functions in one source, so that it is built once: the body of a function
//! becomes a choice between its own and those with a change.

use crate::change::{apply, Change};
use std::collections::BTreeMap;

/// The source with the changes of these numbered engines, each within a function, and the lines,
/// from 1, of each changed body. `crate::choice::chosen()` has to give the number of the engine
/// that is meant, another number for the source as it is.
pub fn with_all(
    source: &str,
    changes: &[(usize, &Change)],
) -> (String, Vec<(usize, usize, usize)>) {
    let mut bodies: BTreeMap<(usize, usize), BTreeMap<usize, Vec<&Change>>> = BTreeMap::new();
    for (number, change) in changes {
        if let Some(body) = change.body {
            bodies.entry(body).or_default().entry(*number).or_default().push(change);
        }
    }
    let mut text = String::new();
    let mut places = Vec::new();
    let mut copied = 0;
    for ((start, end), engines) in bodies {
        text += &source[copied..start];
        text += "{ match crate::choice::chosen() {\n";
        for (number, changes) in engines {
            let first = text.matches('\n').count() + 1;
            let changed = apply(source, &changes);
            // What is behind the body is as long as before.
            let new_end = changed.len() - (source.len() - end);
            text += &format!("{} => {}\n", number, &changed[start..new_end]);
            places.push((number, first, text.matches('\n').count()));
        }
        text += &format!("_ => {}\n}} }}", &source[start..end]);
        copied = end;
    }
    text += &source[copied..];
    (text, places)
}
