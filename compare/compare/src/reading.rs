//! A page reader held against the engine's, on pages of every kind.

use crate::absurd::{every_byte, fixed};
use crate::pages::{Kind, Pages};
use crate::report::front;
use engine::answer::NOT_READ;
use engine::{Answer, Value};
use std::collections::BTreeMap;
use std::panic::{catch_unwind, AssertUnwindSafe};

/// The pages that the tests use and that `compare pages` takes unless it is told another count.
/// Within them every wrong reader is found.
pub const CI_PAGES: usize = 8_000;

/// Bytes that are put at every place of the example.
const BYTES: &[u8] = b"0179/:;-,=\n\r\0 AZ[@az\xff";

/// What a reading comes to in print, since the types of two engines are two: the answer, and the
/// tables.
pub type Told = (String, String);

pub type Read = fn(&[u8]) -> Told;

pub fn engine_reads(page: &[u8]) -> Told {
    let (tables, answer) = engine::read(page);
    (format!("{:?}", answer), format!("{:?}", tables))
}

/// So many pages of this seed, then the fixed ones, each with what it is.
pub fn pages(seed: u64, count: usize) -> impl Iterator<Item = (&'static str, Vec<u8>)> {
    let bytes = every_byte(BYTES.iter().copied()).map(|page| ("every byte at every place", page));
    let made = Pages::new(seed).take(count).map(|(kind, page)| (kind.what(), page));
    made.chain(fixed()).chain(bytes)
}

/// A page on which two readers differ.
pub struct Difference {
    /// Which of the pages.
    pub place: usize,
    pub what: &'static str,
    pub page: Vec<u8>,
    pub expected: Told,
    pub got: Told,
}

/// What the reader says, or that it says nothing.
fn tried(read: Read, page: &[u8]) -> Told {
    let stopped = (String::from("(it stops without an answer)"), String::new());
    catch_unwind(AssertUnwindSafe(|| read(page))).unwrap_or(stopped)
}

/// The first of these pages on which the reader says anything but what is expected.
pub fn first_difference<'a>(
    read: Read,
    pages: impl Iterator<Item = (&'static str, &'a [u8], Told)>,
) -> Option<Difference> {
    for (place, (what, page, expected)) in pages.enumerate() {
        let got = tried(read, page);
        if got != expected {
            return Some(Difference { place, what, page: page.to_vec(), expected, got });
        }
    }
    None
}

/// The most lines of a page that are shown.
const MOST_SHOWN: usize = 400;

pub fn report(difference: &Difference) -> String {
    let Difference { place, what, page, expected, got } = difference;
    let mut text = format!("difference on page {} ({}):\n", place + 1, what);
    for line in page_lines(page) {
        text += &format!("    {}\n", line);
    }
    let tables = if expected.1 == got.1 { "the same tables" } else { "other tables" };
    text += &format!("the engine says: {}\n", expected.0);
    text += &format!("the other says:  {}, {}\n", got.0, tables);
    text
}

/// The lines of a page in print. What follows the last byte 10 is told too.
pub fn page_lines(page: &[u8]) -> Vec<String> {
    let mut lines = Vec::new();
    for (place, line) in page.split(|byte| *byte == b'\n').enumerate().take(MOST_SHOWN) {
        lines.push(format!("{:>3} {}", place + 1, front(line)));
    }
    if page.is_empty() || page.ends_with(b"\n") {
        lines.pop();
    } else {
        lines.push(String::from("(no byte 10 at the end)"));
    }
    lines.push(format!("({} bytes)", page.len()));
    lines
}

/// How often which answer came, by the kind of the page: 0, 15 with a line, 15 with 0.
#[derive(Default)]
pub struct Count {
    kinds: BTreeMap<Kind, [u64; 3]>,
    /// Of all these, the pages with a line suspend=1, and those with another line of that key.
    marked: [u64; 3],
    mismarked: [u64; 3],
    /// The pages with a line of the year that FRESH takes, with year=1975, and with another one.
    dated: [u64; 3],
    usual: [u64; 3],
    misdated: [u64; 3],
}

/// 0, 15 with a line, 15 with 0.
pub fn class(answer: Answer) -> usize {
    match (answer.number, answer.value) {
        (NOT_READ, Value::Number(0)) => 2,
        (NOT_READ, _) => 1,
        _ => 0,
    }
}

impl Count {
    pub fn add(&mut self, kind: Kind, page: &[u8], answer: Answer) {
        let class = class(answer);
        self.kinds.entry(kind).or_default()[class] += 1;
        let lines = || page.split(|byte| *byte == b'\n');
        let other = |line: &[u8]| line.starts_with(b"suspend=") && line != b"suspend=1";
        self.marked[class] += u64::from(lines().any(|line| line == b"suspend=1"));
        self.mismarked[class] += u64::from(lines().any(other));
        let year = |line: &[u8]| {
            let text = line.strip_prefix(b"year=").map(String::from_utf8_lossy);
            text.map(|text| text.parse::<u64>().ok().filter(|year| year.to_string() == text))
        };
        let allowed = |year: Option<u64>| year.filter(|year| (1970..=2099).contains(year));
        let has = |so: &dyn Fn(Option<u64>) -> bool| lines().filter_map(year).any(so);
        self.dated[class] += u64::from(has(&|it| allowed(it).map_or(false, |it| it != 1975)));
        self.usual[class] += u64::from(has(&|it| it == Some(1975)));
        self.misdated[class] += u64::from(has(&|it| allowed(it).is_none()));
    }

    pub fn sums(&self) -> [u64; 3] {
        let mut sums = [0; 3];
        for counts in self.kinds.values() {
            for (sum, count) in sums.iter_mut().zip(counts) {
                *sum += count;
            }
        }
        sums
    }

    pub fn print(&self) -> String {
        let row = |name: &str, [read, line, none]: [u64; 3]| {
            let all = read + line + none;
            format!("{:32}{:>10}{:>10}{:>12}{:>10}\n", name, all, read, line, none)
        };
        let mut text = format!(
            "{:32}{:>10}{:>10}{:>12}{:>10}\n",
            "pages", "all", "read", "15, a line", "15, 0"
        );
        for (kind, counts) in &self.kinds {
            text += &row(kind.what(), *counts);
        }
        text += &row("all", self.sums());
        text += &row("with suspend=1", self.marked);
        text += &row("with another suspend", self.mismarked);
        text += &row("with a year that is shown", self.dated);
        text += &row("with year=1975", self.usual);
        text + &row("with another year line", self.misdated)
    }

    /// Of the pages with a line of the year: one that is shown, 1975, and any other.
    pub fn dated(&self) -> [[u64; 3]; 3] {
        [self.dated, self.usual, self.misdated]
    }

    /// Of the pages with a line suspend=1.
    pub fn marked(&self) -> [u64; 3] {
        self.marked
    }
}
