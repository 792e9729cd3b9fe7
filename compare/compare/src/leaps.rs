//! How often what came up where many ticks were one call: request (iii).

use engine::raw::{Raw, RawRecord};
use engine::sheet::lines;
use engine::tables::{DISC, DORMANT, GENERAL_WAIT, SCHEDULED};
use engine::ticks::{MOST_TICKS, ONE_BY_ONE};
use engine::{parse, Engine, Request};
use std::collections::BTreeMap;

const ACCEPTED: &str = "accepted";
const STARTED: &str = "programs started";
const REFUSED_3: &str = "refused with 3";
pub const REFUSED_11: &str = "refused with 11";

/// What may come up; all of it has to, and all but the last in scripts: these do not come near the
/// ceiling.
pub const ROWS: [&str; 20] = [
    ACCEPTED,
    "more ticks than the engine does one by one",
    "100,000,000 ticks",
    STARTED,
    "two or more started",
    "two or more started, at different moments",
    "three or more started, at three moments",
    "equals started at one moment",
    "equals started, the later one of the lower number",
    "a due at the last tick",
    "a due one behind the last tick",
    "due twice or more",
    "due again after it started its program",
    "due once, of one that is not dormant",
    "one in state 1 is due",
    "one in state 3 or 5 is due",
    "one in state 6 is due",
    "one that is marked is due",
    REFUSED_3,
    REFUSED_11,
];

/// How many lines there were of each, and how many programs started.
#[derive(Default)]
pub struct Count(BTreeMap<&'static str, u64>);

impl Count {
    /// Of all that `TICK,n` does in an input.
    pub fn of_input(input: &[u8]) -> Count {
        let mut count = Count::default();
        let mut engine = Engine::smallest();
        for line in lines(input) {
            if let Some(Request::Ticks(n)) = parse(line) {
                let before = Raw::of(&engine);
                let answer = engine.line(line, &mut []);
                count.add(&before, n, answer.number, &Raw::of(&engine));
            } else {
                engine.line(line, &mut []);
            }
        }
        count
    }

    pub fn of(&self, row: &str) -> u64 {
        self.0.get(row).copied().unwrap_or(0)
    }

    fn note(&mut self, row: &'static str, times: u64) {
        *self.0.entry(row).or_insert(0) += times;
    }

    fn seen(&mut self, row: &'static str, happened: bool) {
        self.note(row, u64::from(happened));
    }

    /// `TICK,n` on sound tables, with the number of its answer and the tables after it.
    pub fn add(&mut self, before: &Raw, n: u64, answer: u64, after: &Raw) {
        match answer {
            0 => self.note(ACCEPTED, 1),
            3 => return self.note(REFUSED_3, 1),
            11 => return self.note(REFUSED_11, 1),
            _ => return,
        }
        self.seen("more ticks than the engine does one by one", n > ONE_BY_ONE);
        self.seen("100,000,000 ticks", n == MOST_TICKS);
        let pairs = || before.records.iter().zip(&after.records);
        let dormant = |record: &RawRecord| record.state == u64::from(DORMANT);
        // In the order of their numbers, which is that of the records.
        let started: Vec<&RawRecord> = pairs()
            .filter(|(old, new)| dormant(old) && !dormant(new))
            .map(|(old, _)| old)
            .collect();
        self.add_started(&started);
        self.add_due(before, after.clock);
    }

    fn add_started(&mut self, started: &[&RawRecord]) {
        let mut moments: Vec<u64> = started.iter().map(|record| record.due).collect();
        moments.sort_unstable();
        moments.dedup();
        self.note(STARTED, started.len() as u64);
        self.seen("two or more started", started.len() >= 2);
        self.seen("two or more started, at different moments", moments.len() >= 2);
        self.seen("three or more started, at three moments", moments.len() >= 3);
        let equals = |so: fn(&RawRecord, &RawRecord) -> bool| {
            (0..started.len()).any(|high| {
                let lower = started[..high].iter();
                lower
                    .filter(|low| low.priority == started[high].priority)
                    .any(|low| so(low, started[high]))
            })
        };
        self.seen("equals started at one moment", equals(|low, high| low.due == high.due));
        let turned = equals(|low, high| low.due > high.due);
        self.seen("equals started, the later one of the lower number", turned);
    }

    fn add_due(&mut self, before: &Raw, end: u64) {
        let set: Vec<&RawRecord> = before.records.iter().filter(|record| record.due > 0).collect();
        let due: Vec<&RawRecord> = set.iter().copied().filter(|record| record.due <= end).collect();
        // Now, or at one of its later dues.
        let falls_on = |record: &RawRecord, tick: u64| match record.interval {
            0 => record.due == tick,
            interval => record.due <= tick && (tick - record.due) % interval == 0,
        };
        self.seen("a due at the last tick", set.iter().any(|record| falls_on(record, end)));
        let behind = set.iter().any(|record| falls_on(record, end + 1));
        self.seen("a due one behind the last tick", behind);
        let again = |record: &RawRecord| record.interval > 0 && record.due + record.interval <= end;
        let in_state = |record: &RawRecord, state: u8| record.state == u64::from(state);
        let dormant = |record: &RawRecord| in_state(record, DORMANT);
        let waits = |record: &RawRecord| in_state(record, GENERAL_WAIT) || in_state(record, DISC);
        self.seen("due twice or more", due.iter().any(|record| again(record)));
        let after_start = due.iter().any(|record| dormant(record) && again(record));
        self.seen("due again after it started its program", after_start);
        let spent = due.iter().any(|record| record.interval == 0 && !dormant(record));
        self.seen("due once, of one that is not dormant", spent);
        self.seen("one in state 1 is due", due.iter().any(|record| in_state(record, SCHEDULED)));
        self.seen("one in state 3 or 5 is due", due.iter().any(|record| waits(record)));
        let suspended = due.iter().any(|record| in_state(record, engine::tables::SUSPENDED));
        self.seen("one in state 6 is due", suspended);
        self.seen("one that is marked is due", due.iter().any(|record| record.suspend));
    }

    /// A table with a column for these, and one for others.
    pub fn print(&self, titles: [&str; 2], others: &Count) -> String {
        let mut text = format!("{:52}{:>10}{:>16}\n", "TICK,n", titles[0], titles[1]);
        for row in ROWS {
            text += &format!("{:52}{:>10}{:>16}\n", row, self.of(row), others.of(row));
        }
        text
    }
}
