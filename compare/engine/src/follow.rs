//! The program `follow`: whether the next sheet can follow. It is given a page, lines that are
//! obeyed from its tables, and the next page; then more lines and pages, each time from the page
//! that was given, never from what the lines came to.

use crate::answer::{self, Answer, Value};
use crate::desk::Desk;
use crate::read::read;
use crate::sheet::{lines, print_answer};
use crate::tables::Engine;

pub const USAGE: &[u8] = b"usage: follow FIRST.page [REQUESTS NEXT.page ...]\n";

/// The most bytes of a page's file. One of requests may be of any length.
pub const MOST_OF_A_PAGE: usize = 65_536;
/// The most bytes of a line that are shown.
pub const MOST_SHOWN: usize = 72;
/// No page is longer.
const LONGEST_PAGE: usize = 8_704;

/// The errors of opening and reading that have a name here.
const NO_SUCH_FILE: i32 = 2;
const NO_PERMISSION: i32 = 13;
const A_DIRECTORY: i32 = 21;
/// In place of the system's number, of a program that opens no file whose name is not in UTF-8.
pub const NOT_UTF8: i32 = -2;

/// A file, and what came of reading it.
#[derive(Clone, Copy, Debug, PartialEq, Eq)]
pub struct File<'a> {
    /// The argument as given.
    pub name: &'a [u8],
    /// What was read: all of it, unless it failed.
    pub bytes: &'a [u8],
    /// The number of the error by which it could not be opened, or not be read any further.
    pub failed: Option<i32>,
}

/// What the program prints, with these files as its arguments: a page, then requests and the next
/// page for each step.
pub fn follow(files: &[File]) -> Vec<u8> {
    let (first, steps) = match files.split_first() {
        Some((first, steps)) if steps.len() % 2 == 0 => (first, steps),
        _ => return USAGE.to_vec(),
    };
    let mut output = Vec::new();
    let mut tables = show_page(&mut output, first);
    for step in steps.chunks(2) {
        tables = take_step(&mut output, tables, &step[0], &step[1]);
    }
    output
}

/// One step from the tables of its first page, if it has one. The tables that the step behind it
/// begins from: those of the next page as given, if that is a page.
fn take_step(
    output: &mut Vec<u8>,
    first: Option<Engine>,
    requests: &File,
    next: &File,
) -> Option<Engine> {
    let written = match first {
        Some(tables) => Some(obey(output, tables, requests).page_bytes()),
        None => {
            say(output, requests.name, "not keyed in, without a first page");
            None
        }
    };
    let given = show_page(output, next);
    if let (Some(written), true) = (written, given.is_some()) {
        verdict(output, requests, next, &written);
    }
    given
}

/// What is said of a file. In its name "bytes below 32 and byte 127" are shown as `?`.
fn say(output: &mut Vec<u8>, name: &[u8], said: &str) {
    output.extend(name.iter().map(|byte| match byte {
        0..=31 | 127 => b'?',
        _ => *byte,
    }));
    output.extend(format!(": {}\n", said).bytes());
}

fn say_failed(output: &mut Vec<u8>, name: &[u8], error: i32) {
    let why = match error {
        NO_SUCH_FILE => String::from("no such file"),
        A_DIRECTORY => String::from("a directory"),
        NO_PERMISSION => String::from("no permission"),
        NOT_UTF8 => String::from("the name is not in UTF-8"),
        _ => format!("error {}", error),
    };
    say(output, name, &format!("cannot be read: {}", why));
}

/// What the reader of pages says to a file, and the tables where it takes it.
fn show_page(output: &mut Vec<u8>, file: &File) -> Option<Engine> {
    if file.bytes.len() > MOST_OF_A_PAGE {
        say(output, file.name, &format!("longer than {} bytes", MOST_OF_A_PAGE));
        return None;
    }
    if let Some(error) = file.failed {
        say_failed(output, file.name, error);
        return None;
    }
    let (tables, answer) = read(file.bytes);
    say(output, file.name, print_answer(answer).trim_end());
    if answer.number == answer::NOT_READ {
        show_told_line(output, file.bytes, answer.value);
        return None;
    }
    tables.engine()
}

/// The line that the reader told, as it stands; none of number 0, and none past the last.
fn show_told_line(output: &mut Vec<u8>, page: &[u8], told: Value) {
    for (number, line) in (1..).zip(lines(page)) {
        if told == Value::Number(number) {
            output.extend([line, b"\n"].concat());
        }
    }
}

/// The lines of a file of requests, obeyed one after another; a refused one changes nothing.
fn obey(output: &mut Vec<u8>, mut tables: Engine, requests: &File) -> Engine {
    let mut room = [0; LONGEST_PAGE];
    for (number, line) in (1..).zip(lines(read_whole(requests))) {
        // The answer to PAGE is 0 and the page's length; the page itself is not shown.
        let answer = tables.line(line, &mut room);
        show_request(output, number, line, answer);
    }
    if let Some(error) = requests.failed {
        say_failed(output, requests.name, error);
    }
    tables
}

/// Where a read failed, what is behind the last byte 10 was not read as a whole line.
fn read_whole<'a>(requests: &File<'a>) -> &'a [u8] {
    let bytes = requests.bytes;
    if requests.failed.is_none() {
        return bytes;
    }
    let end = bytes.iter().rposition(|byte| *byte == b'\n');
    end.map_or(&[], |end| &bytes[..=end])
}

/// `N: LINE -> answer=A,value=V`, and behind it what a refusal's number means.
fn show_request(output: &mut Vec<u8>, number: u64, line: &[u8], answer: Answer) {
    output.extend(format!("{}: ", number).bytes());
    output.extend(shown(line));
    output.extend(format!(" -> {}", print_answer(answer).trim_end()).bytes());
    if answer.number >= 2 {
        output.extend(format!(" (refused: {})", meaning(answer.number)).bytes());
    }
    output.push(b'\n');
}

/// "at most its first 72 bytes, then `..` where the line has more"; "each byte outside 32 to 126
/// shown as `?`".
fn shown(line: &[u8]) -> Vec<u8> {
    let mut shown = Vec::new();
    for byte in line.iter().take(MOST_SHOWN) {
        shown.push(if (32..=126).contains(byte) { *byte } else { b'?' });
    }
    if line.len() > MOST_SHOWN {
        shown.extend(b"..");
    }
    shown
}

/// The README, table of answers, as far as a line can get them.
fn meaning(number: u64) -> &'static str {
    match number {
        answer::NO_CALLER => "no program is scheduled",
        answer::NOT_ALLOWED => "a number or parameter is not allowed",
        answer::NO_PROGRAM => "no such program",
        answer::WRONG_STATE => "the program is in the wrong state",
        answer::NAME_IN_USE => "the name is in use",
        answer::ALL_USED => "all 32 records are used",
        answer::NO_ROOM => "no room now, and the caller would not wait",
        answer::NOT_HOLDER => "not the holder",
        answer::NOT_ALLOCATED => "the resource number is not allocated",
        answer::CEILING => "the clock is at its ceiling",
        answer::NOT_UNDERSTOOD => "the line is not understood",
        _ => "no line is answered so",
    }
}

/// Of a next page that is one: whether it is what the tables write after the requests.
fn verdict(output: &mut Vec<u8>, requests: &File, next: &File, written: &[u8]) {
    if requests.failed.is_some() {
        say(output, next.name, "without its requests");
    } else if next.bytes == written {
        say(output, next.name, "follows");
    } else {
        say(output, next.name, "does not follow");
        output.extend(differences(next.bytes, written));
    }
}

/// The lines of the sheet that the written page has otherwise or not at all; then those of the
/// written page that the sheet lacks; where there are neither, the first line at which they part.
pub fn differences(sheet: &[u8], written: &[u8]) -> Vec<u8> {
    let mut output = Vec::new();
    for (line, other) in Desk::new(sheet, written).differing() {
        let other = other.map(|other| other.bytes);
        show_both(&mut output, "line", line.number, Some(line.bytes), other);
    }
    for (line, other) in Desk::new(written, sheet).differing() {
        if other.is_none() {
            show_both(&mut output, "written line", line.number, None, Some(line.bytes));
        }
    }
    if output.is_empty() {
        show_parting(&mut output, &lines(sheet), &lines(written));
    }
    output
}

fn show_parting(output: &mut Vec<u8>, sheet: &[&[u8]], written: &[&[u8]]) {
    for place in 0..sheet.len().max(written.len()) {
        let (one, other) = (sheet.get(place).copied(), written.get(place).copied());
        if one != other {
            show_both(output, "line", place as u64 + 1, one, other);
            return;
        }
    }
}

/// A line as the sheet has it and as the requests lead to it.
fn show_both(
    output: &mut Vec<u8>,
    what: &str,
    number: u64,
    sheet: Option<&[u8]>,
    written: Option<&[u8]>,
) {
    let [sheet, written] = [sheet, written].map(|line| line.unwrap_or(b"no such line"));
    output.extend(format!("{} {}: ", what, number).bytes());
    output.extend([sheet, b" on the sheet, ", written, b" by the requests\n"].concat());
}
