//! How often what came up of start years and of the time: request (iv).

use crate::years::{days, first_tick, DAY};
use engine::sheet::lines;
use engine::tables::{EARLIEST_YEAR, LATEST_YEAR, USUAL_YEAR};
use engine::{parse, Answer, Engine, Request, Value};
use std::collections::BTreeMap;

/// What shows in fixed inputs alone: no script has so many ticks.
pub const IN_FIXED: [&str; 2] = ["a time after 2199", "a time after 2399"];

/// What may come up; all of it has to.
pub const ROWS: [&str; 23] = [
    "FRESH with a year, accepted",
    "FRESH with the year 1975",
    "FRESH with a leap year",
    "FRESH with the year 2000",
    "FRESH with the year 1970 or 2099",
    "FRESH with a year, refused with 3 for the year alone",
    "FRESH with a year, refused with 3 for a size",
    "FRESH with more than three fields, refused with 13",
    "FRESH without a year, the year before it another",
    "FRESH refused, the year another than 1975",
    "PAGE with a line of the year",
    "PAGE with a line of the year, the time in another year",
    "EXEC 11 answered",
    "a time on day 366",
    "a time on day 365, the last of a common year",
    "a time on day 365 of a leap year",
    "a time on the first day of a year behind the start year",
    "the last tick of a year",
    "the first tick of a year behind the start year",
    "a time in 2000",
    "a time after 2100",
    "a time after 2199",
    "a time after 2399",
];

/// How many lines there were of each.
#[derive(Default)]
pub struct Count(BTreeMap<&'static str, u64>);

impl Count {
    /// Of all lines of an input.
    pub fn of_input(input: &[u8]) -> Count {
        let mut count = Count::default();
        let mut engine = Engine::smallest();
        for line in lines(input) {
            let before = (engine.year, engine.clock);
            // The page itself is not looked at.
            let answer = match parse(line) {
                Some(Request::Page) => Answer::new(0, 0),
                _ => engine.line(line, &mut []),
            };
            count.add(before, line, answer);
        }
        count
    }

    pub fn of(&self, row: &str) -> u64 {
        self.0.get(row).copied().unwrap_or(0)
    }

    fn seen(&mut self, row: &'static str, happened: bool) {
        *self.0.entry(row).or_insert(0) += u64::from(happened);
    }

    /// A line on sound tables of this start year and clock, with its answer.
    pub fn add(&mut self, (start, clock): (u64, u64), line: &[u8], answer: Answer) {
        match parse(line) {
            Some(Request::Fresh(t, s, r, year)) => self.add_fresh(start, (t, s, r), year, answer),
            Some(Request::Page) => {
                let another = clock >= first_tick(start, start + 1);
                self.seen("PAGE with a line of the year", start != USUAL_YEAR);
                let row = "PAGE with a line of the year, the time in another year";
                self.seen(row, start != USUAL_YEAR && another);
            }
            None => {
                let fields = line.split(|byte| *byte == b',').count();
                let fresh = line.starts_with(b"FRESH,") && fields > 4;
                self.seen("FRESH with more than three fields, refused with 13", fresh);
            }
            _ => {}
        }
        if let Value::Time([year, day, ..]) = answer.value {
            self.add_time((start, clock), year, day);
        }
    }

    fn add_fresh(
        &mut self,
        before: u64,
        (t, s, r): (u64, u64, u64),
        year: Option<u64>,
        answer: Answer,
    ) {
        let accepted = answer.number == 0;
        let row = "FRESH refused, the year another than 1975";
        self.seen(row, !accepted && before != USUAL_YEAR);
        let year = match year {
            Some(year) => year,
            None => {
                let row = "FRESH without a year, the year before it another";
                return self.seen(row, accepted && before != USUAL_YEAR);
            }
        };
        self.seen("FRESH with a year, accepted", accepted);
        self.seen("FRESH with the year 1975", accepted && year == USUAL_YEAR);
        self.seen("FRESH with a leap year", accepted && days(year) == 366);
        self.seen("FRESH with the year 2000", accepted && year == 2000);
        let bound = year == EARLIEST_YEAR || year == LATEST_YEAR;
        self.seen("FRESH with the year 1970 or 2099", accepted && bound);
        let sizes = Engine::fresh(t, s, r, USUAL_YEAR).1.is_ok();
        let row = "FRESH with a year, refused with 3 for the year alone";
        self.seen(row, !accepted && sizes);
        self.seen("FRESH with a year, refused with 3 for a size", !accepted && !sizes);
    }

    fn add_time(&mut self, (start, clock): (u64, u64), year: u64, day: u64) {
        self.seen("EXEC 11 answered", true);
        self.seen("a time on day 366", day == 366);
        let row = "a time on day 365, the last of a common year";
        self.seen(row, day == 365 && days(year) == 365);
        self.seen("a time on day 365 of a leap year", day == 365 && days(year) == 366);
        let later = year > start;
        self.seen("a time on the first day of a year behind the start year", later && day == 1);
        let (of_day, last) = (clock % DAY, day == days(year));
        self.seen("the last tick of a year", last && of_day == DAY - 1);
        let row = "the first tick of a year behind the start year";
        self.seen(row, later && day == 1 && of_day == 0);
        self.seen("a time in 2000", year == 2000);
        self.seen("a time after 2100", year > 2100);
        self.seen("a time after 2199", year > 2199);
        self.seen("a time after 2399", year > 2399);
    }

    /// A table with a column for these, and one for others.
    pub fn print(&self, titles: [&str; 2], others: &Count) -> String {
        let mut text = format!("{:58}{:>10}{:>16}\n", "years", titles[0], titles[1]);
        for row in ROWS {
            text += &format!("{:58}{:>10}{:>16}\n", row, self.of(row), others.of(row));
        }
        text
    }
}
