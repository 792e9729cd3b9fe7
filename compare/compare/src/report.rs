//! A difference in print: the script, then what either side prints on it.

use engine::sheet;
use engine::sheet::lines;
use std::fmt::Write;

/// Bytes that are not plain print are shown as `\xNN`.
pub fn shown(line: &[u8]) -> String {
    let mut text = String::new();
    for byte in line {
        match byte {
            b'\\' => text += "\\\\",
            b' '..=b'~' => text.push(*byte as char),
            _ => text += &format!("\\x{:02x}", byte),
        }
    }
    text
}

/// Lines that are alike and more than so many are shown once: the way to the ceiling has thousands.
const MOST_ALIKE: usize = 5;

fn block(text: &mut String, title: &str, bytes: &[u8], mark: Option<usize>) {
    let _ = writeln!(text, "{}:", title);
    let all = lines(bytes);
    let mut place = 0;
    while place < all.len() {
        let alike = |next: &usize| all[*next] == all[place] && mark != Some(*next);
        let mut count = (place..all.len()).take_while(alike).count();
        if mark == Some(place) {
            let _ = writeln!(text, "  > {}", shown(all[place]));
            count = 1;
        } else if count > MOST_ALIKE {
            let _ = writeln!(text, "    {} ({} times)", shown(all[place]), count);
        } else {
            let line = format!("    {}\n", shown(all[place]));
            *text += &line.repeat(count);
        }
        place += count;
    }
    if !bytes.is_empty() && !bytes.ends_with(b"\n") {
        let _ = writeln!(text, "    (no byte 10 at the end)");
    }
}

pub fn report(input: &[u8], got: &[u8]) -> String {
    let mut text = String::new();
    block(&mut text, "script", input, None);
    text + &outputs(&sheet(input), got)
}

/// The same with no more than so many lines before the first in which they differ, and behind it,
/// and with no more than the front of a long one.
pub fn outputs_near(expected: &[u8], got: &[u8], near: usize) -> String {
    let (right, wrong) = (lines(expected), lines(got));
    let same = right.iter().zip(&wrong).take_while(|(a, b)| a == b).count();
    let mut text = String::new();
    for (title, all) in [("the engine prints", right), ("the other prints", wrong)] {
        let _ = writeln!(text, "{}:", title);
        let first = same.saturating_sub(near);
        let shown = &all[first.min(all.len())..all.len().min(same + near + 1)];
        tell_left_out(&mut text, all.len().min(first));
        for (place, line) in (first..).zip(shown) {
            let sign = if place == same { '>' } else { ' ' };
            let _ = writeln!(text, "  {} {}", sign, front(line));
        }
        tell_left_out(&mut text, all.len().saturating_sub(same + near + 1));
    }
    if expected.ends_with(b"\n") != got.ends_with(b"\n") {
        let _ = writeln!(text, "(one of them has no byte 10 at the end)");
    }
    text
}

fn tell_left_out(text: &mut String, count: usize) {
    if count > 0 {
        let _ = writeln!(text, "    ({} lines)", count);
    }
}

/// The most bytes of a line that are shown.
const MOST_SHOWN: usize = 400;

/// A line in print, without what is too much of it.
pub fn front(line: &[u8]) -> String {
    let cut = &line[..line.len().min(MOST_SHOWN)];
    let more = if cut.len() < line.len() { ".." } else { "" };
    shown(cut) + more
}

/// The first line in which the two differ is marked in both.
pub fn outputs(expected: &[u8], got: &[u8]) -> String {
    let (right, wrong) = (lines(expected), lines(got));
    let same = right.iter().zip(&wrong).take_while(|(a, b)| a == b).count();
    let mut text = String::new();
    block(&mut text, "the engine prints", expected, Some(same));
    block(&mut text, "the other prints", got, Some(same));
    text
}
