//! What stands on the command line: options, each with a value.

use std::ops::Range;

/// The options and their values, in order.
pub fn pairs(words: &[String], usage: &str) -> Result<Vec<(String, String)>, String> {
    if words.len() % 2 != 0 {
        return Err(usage.to_string());
    }
    Ok(words.chunks(2).map(|pair| (pair[0].clone(), pair[1].clone())).collect())
}

pub fn whole(text: &str) -> Result<u64, String> {
    text.parse().map_err(|_| format!("{} is not a number", text))
}

/// A..B
pub fn range(text: &str) -> Result<Range<u64>, String> {
    let (start, end) = text.split_once("..").ok_or(format!("{} is not A..B", text))?;
    Ok(whole(start)?..whole(end)?)
}
