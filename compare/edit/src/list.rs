//! Wrong engines as a person writes them down, each as changes of the right one's text:
//!
//! ```text
//! fault: across-gap
//! what: free tracks are added up across a gap
//! file: tracks.rs
//! old: } else {
//! old:     length = 0;
//! new: } else {
//! ```
//!
//! The old text is a part of one line, or of several lines below each other, where blanks at the
//! ends of a line do not count. It has to stand exactly once in its file. Another `old:` begins
//! another change of the same file, another `file:` one of another file. A line that is blank or
//! begins with `#` is skipped.

use crate::change::Change;
use crate::lexer::{bodies, tokens};

#[derive(Clone, Debug, PartialEq, Eq)]
pub struct Patch {
    pub name: String,
    /// What it does wrong.
    pub what: String,
    pub edits: Vec<Edit>,
}

#[derive(Clone, Debug, PartialEq, Eq)]
pub struct Edit {
    pub file: String,
    /// Lines, without their blanks.
    pub old: Vec<String>,
    pub new: Vec<String>,
}

pub fn read(list: &str) -> Result<Vec<Patch>, String> {
    let mut patches: Vec<Patch> = Vec::new();
    for (place, line) in list.lines().enumerate() {
        if !line.is_empty() && !line.starts_with('#') {
            add(&mut patches, line)
                .ok_or_else(|| format!("line {}, out of place: {}", place + 1, line))?;
        }
    }
    let whole = |edit: &Edit| !edit.old.is_empty() && !edit.new.is_empty();
    for patch in &patches {
        if patch.what.is_empty() || patch.edits.is_empty() || !patch.edits.iter().all(whole) {
            return Err(format!("{}: not whole", patch.name));
        }
    }
    Ok(patches)
}

/// None if the line is not in its place.
fn add(patches: &mut Vec<Patch>, line: &str) -> Option<()> {
    let (key, text) = line.split_once(':')?;
    let text = text.trim().to_string();
    if key == "fault" {
        patches.push(Patch { name: text, what: String::new(), edits: Vec::new() });
        return Some(());
    }
    let patch = patches.last_mut()?;
    match key {
        "what" if patch.what.is_empty() => patch.what = text,
        "file" => patch.edits.push(Edit { file: text, old: Vec::new(), new: Vec::new() }),
        "old" => {
            let last = patch.edits.last()?;
            if !last.new.is_empty() {
                let file = last.file.clone();
                patch.edits.push(Edit { file, old: Vec::new(), new: Vec::new() });
            }
            patch.edits.last_mut()?.old.push(text);
        }
        "new" => patch.edits.last_mut().filter(|edit| !edit.old.is_empty())?.new.push(text),
        _ => return None,
    }
    Some(())
}

impl Edit {
    /// Where it is in its file's source; an error unless its old text is there exactly once.
    pub fn change(&self, source: &str) -> Result<Change, String> {
        let starts = source.match_indices(self.old[0].as_str()).map(|(start, _)| start);
        let found: Vec<(usize, usize)> = starts
            .filter_map(|start| Some((start, start + length(&source[start..], &self.old)?)))
            .collect();
        match found[..] {
            [place] => {
                Ok(Change::new(source, &bodies(&tokens(source)), place, self.new.join("\n")))
            }
            _ => Err(format!("{}: {} times: {}", self.file, found.len(), self.old.join("\n"))),
        }
    }
}

/// The length of these lines at the front of a text, if they are there.
fn length(text: &str, lines: &[String]) -> Option<usize> {
    let mut rest = text;
    for (place, line) in lines.iter().enumerate() {
        if place > 0 {
            rest = rest.strip_prefix('\n')?.trim_start_matches(' ');
        }
        rest = rest.strip_prefix(line.as_str())?;
    }
    Some(text.len() - rest.len())
}
