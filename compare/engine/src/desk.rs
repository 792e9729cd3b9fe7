//! Request (xii): the reading desk. It is lent two texts, the original's transcript and the copy's,
//! either of them damaged in any way. The lines of both are put down by their key and occurrence
//! first; to find a line, or the counterpart of another, is then to look there.

use crate::answer::{allow, Answer, NO_LINE, TOO_SHORT};
use crate::sheet::{lines, print_answer};
use std::collections::BTreeMap;

/// Which of the two texts.
#[derive(Clone, Copy, Debug, PartialEq, Eq)]
pub enum Mark {
    Original,
    Copy,
}

/// What finding comes to: where the line begins and ends in the text that is marked.
#[derive(Clone, Copy, Debug, PartialEq, Eq)]
pub struct Found {
    pub answer: Answer,
    pub mark: Mark,
    pub begin: usize,
    pub end: usize,
}

/// A line that has a key.
#[derive(Clone, Copy, Debug, PartialEq, Eq)]
pub struct Line<'a> {
    /// From 1, all lines counted.
    pub number: u64,
    /// The place of its first byte in the text.
    pub begin: usize,
    /// "A line's bytes leave out its byte 10"
    pub bytes: &'a [u8],
}

/// Lines by their key, and by which of the lines with this key they are, from 1.
pub type Keyed<'a> = BTreeMap<(&'a [u8], u64), Line<'a>>;

/// "its key ends at its first `=`"; none without one, the empty key before one at the front.
pub fn key(line: &[u8]) -> Option<&[u8]> {
    let end = line.iter().position(|byte| *byte == b'=')?;
    Some(&line[..end])
}

/// "a line without `=` is passed over, a last one without byte 10 counts"
pub fn keyed(text: &[u8]) -> Keyed<'_> {
    let mut met: BTreeMap<&[u8], u64> = BTreeMap::new();
    let mut keyed = Keyed::new();
    let mut begin = 0;
    for (number, bytes) in (1..).zip(lines(text)) {
        if let Some(key) = key(bytes) {
            let occurrence = met.entry(key).or_insert(0);
            *occurrence += 1;
            keyed.insert((key, *occurrence), Line { number, begin, bytes });
        }
        // Its byte 10 belongs to no line.
        begin += bytes.len() + 1;
    }
    keyed
}

/// Two texts, sorted out.
pub struct Desk<'a> {
    pub original: Keyed<'a>,
    pub copy: Keyed<'a>,
}

impl<'a> Desk<'a> {
    pub fn new(original: &'a [u8], copy: &'a [u8]) -> Desk<'a> {
        Desk { original: keyed(original), copy: keyed(copy) }
    }

    /// "from the original if the line is there, else from the copy"
    fn line(&self, key: &[u8], occurrence: u64) -> Result<(Mark, Line<'a>), Answer> {
        allow(!key.is_empty() && occurrence > 0)?;
        let wanted = (key, occurrence);
        if let Some(line) = self.original.get(&wanted) {
            return Ok((Mark::Original, *line));
        }
        match self.copy.get(&wanted) {
            Some(line) => Ok((Mark::Copy, *line)),
            None => Err(Answer::new(NO_LINE, 0)),
        }
    }

    pub fn find(&self, key: &[u8], occurrence: u64) -> Found {
        match self.line(key, occurrence) {
            Ok((mark, line)) => {
                let end = line.begin + line.bytes.len();
                Found { answer: Answer::new(0, 0), mark, begin: line.begin, end }
            }
            // "the empty front of the original, marked so"
            Err(answer) => Found { answer, mark: Mark::Original, begin: 0, end: 0 },
        }
    }

    /// "in the original's order, each line whose counterpart in the copy (same key, same occurrence)
    /// differs or is missing", with that counterpart.
    pub fn differing(&self) -> Vec<(&Line<'a>, Option<&Line<'a>>)> {
        let mut differing = Vec::new();
        for (place, line) in &self.original {
            let other = self.copy.get(place);
            if other.map(|other| other.bytes) != Some(line.bytes) {
                differing.push((line, other));
            }
        }
        differing.sort_by_key(|(line, _)| line.number);
        differing
    }

    /// The numbers of these lines at the front of the list, and how many; 12 and nothing written
    /// where it has too few places for them.
    pub fn list(&self, list: &mut [u64]) -> Answer {
        let numbers: Vec<u64> = self.differing().iter().map(|(line, _)| line.number).collect();
        let needed = numbers.len();
        if list.len() < needed {
            return Answer::new(TOO_SHORT, needed as u64);
        }
        list[..needed].copy_from_slice(&numbers);
        Answer::new(0, needed as u64)
    }

    /// What the program `desk` prints: the line that is asked for, or what is listed.
    pub fn print(&self, asked: Option<(&[u8], u64)>) -> Vec<u8> {
        match asked {
            Some((key, occurrence)) => self.print_line(key, occurrence),
            None => self.print_list(),
        }
    }

    fn print_line(&self, key: &[u8], occurrence: u64) -> Vec<u8> {
        match self.line(key, occurrence) {
            Ok((Mark::Original, line)) => [b"original: ", line.bytes, b"\n"].concat(),
            Ok((Mark::Copy, line)) => [b"copy: ", line.bytes, b"\n"].concat(),
            Err(answer) => print_answer(answer).into_bytes(),
        }
    }

    fn print_list(&self) -> Vec<u8> {
        let mut output = Vec::new();
        let differing = self.differing();
        for (line, other) in &differing {
            let number = format!("line {}: ", line.number);
            // No line that has a key is a dash.
            let other = other.map_or(&b"-"[..], |other| other.bytes);
            output.extend([number.as_bytes(), line.bytes, b" | ", other, b"\n"].concat());
        }
        output.extend(print_answer(Answer::new(0, differing.len() as u64)).bytes());
        output
    }
}

/// The line with this key that is the `occurrence`th with it, from 1.
pub fn find(original: &[u8], copy: &[u8], key: &[u8], occurrence: u64) -> Found {
    Desk::new(original, copy).find(key, occurrence)
}

/// The numbers of the lines that are listed, into a lent list.
pub fn list(original: &[u8], copy: &[u8], list: &mut [u64]) -> Answer {
    Desk::new(original, copy).list(list)
}
