//! How often what came up, in runs of sheets: told from what the engine prints on them.

use crate::sheets::Run;
use engine::sheet::lines;
use std::collections::BTreeMap;

/// How much of what was compared.
#[derive(Default)]
pub struct Count {
    pub runs: u64,
    pub triples: u64,
    rows: BTreeMap<&'static str, u64>,
}

const FOLLOWS: &str = "follows";
const DOES_NOT: &str = "does not follow";
const UNREAD: &str = "without its requests";
const NO_FIRST: &str = "without a first page";
const NO_NEXT: &str = "the next is no page";
const REFUSED: &str = "refused";
const PARTING: &str = "nothing listed, where they part";

/// What may come up; each of it has to. Those of triples come first, then those of files, of
/// requests, and of differences.
pub const ROWS: [&str; 42] = [
    FOLLOWS,
    DOES_NOT,
    NO_NEXT,
    NO_FIRST,
    UNREAD,
    "one page alone",
    "usage",
    "page read",
    "15, a line that is shown",
    "15, past the last line",
    "15, 0",
    "longer than 65536 bytes",
    "no such file",
    "a directory",
    "no permission",
    "another error",
    "request, done",
    "request, the caller waits",
    REFUSED,
    "refused with 2",
    "refused with 3",
    "refused with 4",
    "refused with 5",
    "refused with 6",
    "refused with 7",
    "refused with 8",
    "refused with 9",
    "refused with 10",
    "refused with 11",
    "refused with 13",
    "request cut at 72 bytes",
    "PAGE",
    "a time",
    "a time of another year",
    "FRESH with a year, done",
    "FRESH with a year, refused with 3",
    "line of both that differs",
    "line of the sheet alone",
    "line written alone",
    PARTING,
    "a year that differs",
    "a year on one of the two alone",
];

/// What a line of the output is; none where it is a line of a page that is none.
fn row(line: &str) -> Option<&'static str> {
    let ends = [
        (": follows", FOLLOWS),
        (": does not follow", DOES_NOT),
        (": without its requests", UNREAD),
        (": not keyed in, without a first page", NO_FIRST),
        (": longer than 65536 bytes", "longer than 65536 bytes"),
        (": cannot be read: no such file", "no such file"),
        (": cannot be read: a directory", "a directory"),
        (": cannot be read: no permission", "no permission"),
        (": answer=15,value=0", "15, 0"),
    ];
    if let Some((_, row)) = ends.iter().find(|(end, _)| line.ends_with(end)) {
        return Some(row);
    }
    if line.starts_with("usage: ") {
        return Some("usage");
    }
    if line.contains(": cannot be read: error ") {
        return Some("another error");
    }
    if line.starts_with("written line ") {
        return Some("line written alone");
    }
    if line.starts_with("line ") && line.contains(" on the sheet, ") {
        let alone = line.ends_with(" on the sheet, no such line by the requests");
        let row = if parting(line) { PARTING } else { "line of both that differs" };
        return Some(if alone { "line of the sheet alone" } else { row });
    }
    let read = line.ends_with(": answer=0,value=0");
    request(line).or(Some("page read").filter(|_| read))
}

/// Whether two lines of different keys are shown: the desk lists none so.
fn parting(line: &str) -> bool {
    let key = |shown: &str| shown.split('=').next().map(String::from);
    let sides = line.split_once(": ").and_then(|(_, shown)| shown.split_once(" on the sheet, "));
    sides.map_or(false, |(sheet, written)| key(sheet) != key(written))
}

/// What a request came to, if it is one.
fn request(line: &str) -> Option<&'static str> {
    let (front, answer) = line.rsplit_once(" -> answer=")?;
    let number = answer.split(',').next().unwrap_or("");
    front.split_once(": ").filter(|(number, _)| number.parse::<u64>().is_ok())?;
    let row = match number {
        "0" => "request, done",
        "1" => "request, the caller waits",
        "2" => "refused with 2",
        "3" => "refused with 3",
        "4" => "refused with 4",
        "5" => "refused with 5",
        "6" => "refused with 6",
        "7" => "refused with 7",
        "8" => "refused with 8",
        "9" => "refused with 9",
        "10" => "refused with 10",
        "11" => "refused with 11",
        "13" => "refused with 13",
        _ => return None,
    };
    Some(row)
}

impl Count {
    fn add_row(&mut self, row: &'static str) {
        *self.rows.entry(row).or_insert(0) += 1;
    }

    /// How often this came up.
    pub fn of(&self, row: &str) -> u64 {
        if row == NO_NEXT {
            let others = [FOLLOWS, DOES_NOT, UNREAD, NO_FIRST].map(|row| self.of(row));
            return self.triples.saturating_sub(others.iter().sum());
        }
        self.rows.get(row).copied().unwrap_or(0)
    }

    /// A run, with what the engine prints on it.
    pub fn add(&mut self, run: &Run, printed: &[u8]) {
        self.runs += 1;
        self.triples += run.triples();
        if run.sheets.len() == 1 {
            self.add_row("one page alone");
        }
        let text: Vec<_> = lines(printed).into_iter().map(String::from_utf8_lossy).collect();
        for (place, line) in text.iter().enumerate() {
            match row(line) {
                Some(row) => self.add_line(row, line),
                None if line.contains(": answer=15,value=") => {
                    let told = text.get(place + 1).map_or(false, |next| row(next).is_none());
                    let row = ["15, past the last line", "15, a line that is shown"];
                    self.add_row(row[usize::from(told)]);
                }
                None => {}
            }
        }
    }

    fn add_line(&mut self, row: &'static str, line: &str) {
        self.add_row(row);
        let shown = line.split_once(": ").map_or("", |(_, shown)| shown);
        let listed = shown.contains(" on the sheet, ");
        if listed && (shown.starts_with("year=") || shown.contains(" on the sheet, year=")) {
            let both = row == "line of both that differs";
            self.add_row(
                ["a year on one of the two alone", "a year that differs"][usize::from(both)],
            );
        }
        if row.starts_with("refused with ") {
            self.add_row(REFUSED);
        }
        if let (Some(_), Some((front, answer))) = (request(line), line.rsplit_once(" -> ")) {
            if front.ends_with("..") {
                self.add_row("request cut at 72 bytes");
            }
            if front.ends_with(": PAGE") {
                self.add_row("PAGE");
            }
            if answer.contains('.') {
                self.add_row("a time");
                if !answer.contains("=1975.") {
                    self.add_row("a time of another year");
                }
            }
            let fields = front.matches(',').count();
            if front.contains(": FRESH,") && fields == 4 {
                match row {
                    "request, done" => self.add_row("FRESH with a year, done"),
                    "refused with 3" => self.add_row("FRESH with a year, refused with 3"),
                    _ => {}
                }
            }
        }
    }

    pub fn print(&self) -> String {
        let rows = ROWS.iter().map(|row| (*row, self.of(row)));
        let all = [("runs", self.runs), ("triples", self.triples)].into_iter().chain(rows);
        all.map(|(row, times)| format!("{:32}{:>10}\n", row, times)).collect()
    }
}
