//! How often what came up in scripts: who woke by what, with the mark of request (ii) and without
//! it, and what was asked of those who wait and are marked; what many ticks at once did; and start
//! years and times.

use crate::leaps;
use crate::script::generate;
use crate::turns;
use engine::raw::Raw;
use engine::sheet::lines;
use engine::tables::{DISC, DORMANT, GENERAL_WAIT, SCHEDULED, SUSPENDED};
use engine::{parse, Answer, Engine, Name, Program, Request, Why};
use std::collections::{BTreeMap, BTreeSet};
use std::ops::Range;

/// Each way to wake; all of them have to come up.
pub const CAUSES: [&str; 12] = [
    "tracks, by EXEC 5",
    "tracks, by EXEC 5 ALL",
    "tracks, by EXEC 16",
    "tracks, by OF",
    "a son, by EXEC 6",
    "a son, by OF 1",
    "a son, by OF 8",
    "a lock, by CLEAR",
    "a lock, by FREE",
    "a lock, by an ending",
    "any number, by FREE",
    "any number, by an ending",
];

/// What else may come up; all of it has to.
pub const ROWS: [&str; 19] = [
    "SS of one in state 3",
    "SS of one in state 5",
    "SS of one that is marked",
    "SS of one in state 0",
    "SS of one in state 1",
    "SS of one in state 6",
    "GO of one that is marked",
    "RU of one that is marked",
    "PR of one that is marked",
    "PR of one that is marked, to the number it has, among equals",
    "EXEC 9 or 10 of one that is marked",
    "EXEC 12 of one that is marked",
    "TICK, one that is marked is due",
    "OF 1 of one that is marked",
    "OF 8 of one that is marked",
    "LOAD into the record of one that was removed with its mark",
    "two equals enter chain 6 at once",
    "who wakes enters chain 6 behind an equal",
    "both chains wake into chain 6 at once",
];

/// Of one cause: how many woke without the mark and with it; and how many of each among two or more
/// that the same call woke, of their priority and of the other kind.
#[derive(Clone, Copy, Debug, Default, PartialEq, Eq)]
pub struct Woken {
    pub without: u64,
    pub with: u64,
    pub without_among: u64,
    pub with_among: u64,
}

#[derive(Default)]
pub struct Count {
    pub scripts: u64,
    /// Those in which somebody was marked.
    pub marked: u64,
    pub leaps: leaps::Count,
    pub turns: turns::Count,
    causes: BTreeMap<&'static str, Woken>,
    rows: BTreeMap<&'static str, u64>,
}

impl Count {
    pub fn of_scripts(seeds: Range<u64>, lines: usize) -> Count {
        let mut count = Count::default();
        seeds.for_each(|seed| count.add(&generate(seed, lines)));
        count
    }

    pub fn woken(&self, cause: &str) -> Woken {
        self.causes.get(cause).copied().unwrap_or_default()
    }

    pub fn of(&self, row: &str) -> u64 {
        self.rows.get(row).copied().unwrap_or(0)
    }

    pub fn add(&mut self, script: &[u8]) {
        let mut engine = Engine::smallest();
        let mut removed = BTreeSet::new();
        let mut marked = false;
        for line in lines(script) {
            let date = (engine.year, engine.clock);
            let request = match parse(line) {
                Some(Request::Page) | None => {
                    // Of a page only that it is asked for is told, and of no line that it is none.
                    self.turns.add(date, line, Answer::new(0, 0));
                    continue;
                }
                Some(request) => request,
            };
            let before = engine.clone();
            let outcome = engine.perform(request, &mut []);
            self.turns.add(date, line, Answer::of(outcome));
            self.add_asked(&before, request);
            if let Request::Ticks(n) = request {
                let answer = Answer::of(outcome).number;
                self.leaps.add(&Raw::of(&before), n, answer, &Raw::of(&engine));
            }
            if outcome.is_ok() {
                self.add_records(&before, request, &engine, &mut removed);
                self.add_woken(&before, request, &engine);
            }
            marked |= engine.programs.values().any(|program| program.suspend);
        }
        self.scripts += 1;
        self.marked += u64::from(marked);
    }

    fn note(&mut self, row: &'static str, happened: bool) {
        *self.rows.entry(row).or_insert(0) += u64::from(happened);
    }

    /// What was asked of whom, whether it was refused or not.
    fn add_asked(&mut self, before: &Engine, request: Request) {
        if request == Request::Tick {
            let due = |it: &Program| it.timer.map_or(false, |timer| timer.due == before.clock + 1);
            let marked = before.programs.values().any(|it| it.suspend && due(it));
            self.note("TICK, one that is marked is due", marked);
        }
        let program = match name_of(request).and_then(|name| before.find(name).ok()) {
            Some(p) => &before.programs[&p],
            None => return,
        };
        let equal = |it: &Program| it.state == program.state && it.priority == program.priority;
        let among_equals = before.programs.values().filter(|it| equal(it)).count() > 1;
        match (request, program.suspend) {
            (Request::Ss(_), true) => self.note("SS of one that is marked", true),
            (Request::Ss(_), false) => {
                let row = match program.state {
                    DORMANT => "SS of one in state 0",
                    SCHEDULED => "SS of one in state 1",
                    GENERAL_WAIT => "SS of one in state 3",
                    DISC => "SS of one in state 5",
                    _ => "SS of one in state 6",
                };
                self.note(row, true);
            }
            (_, false) => {}
            (Request::Go(_), _) => self.note("GO of one that is marked", true),
            (Request::Ru(_), _) => self.note("RU of one that is marked", true),
            (Request::Pr(_, number), _) => {
                self.note("PR of one that is marked", true);
                let behind = number == program.priority && among_equals;
                let row = "PR of one that is marked, to the number it has, among equals";
                self.note(row, behind);
            }
            (Request::Exec9(_) | Request::Exec10(_), _) => {
                let called = before.caller().is_ok();
                self.note("EXEC 9 or 10 of one that is marked", called);
            }
            _ => {}
        }
    }

    /// What a request that was accepted did to a record.
    fn add_records(
        &mut self,
        before: &Engine,
        request: Request,
        after: &Engine,
        removed: &mut BTreeSet<usize>,
    ) {
        let marked = |name: Name| {
            let named = before.find(name).ok();
            named.filter(|p| before.programs[p].suspend)
        };
        match request {
            Request::Fresh(..) => removed.clear(),
            Request::Exec12(name, ..) => {
                self.note("EXEC 12 of one that is marked", marked(name).is_some());
            }
            Request::Of(name, 1) => {
                self.note("OF 1 of one that is marked", marked(name).is_some());
            }
            Request::Of(name, _) => {
                self.note("OF 8 of one that is marked", marked(name).is_some());
                removed.extend(marked(name));
            }
            Request::Load(name, _) => {
                let met = after.find(name).map_or(false, |p| removed.remove(&p));
                self.note("LOAD into the record of one that was removed with its mark", met);
            }
            _ => {}
        }
    }

    fn add_woken(&mut self, before: &Engine, request: Request, after: &Engine) {
        let woken = woken(before, after);
        for p in &woken {
            let program = &before.programs[p];
            let cause = match cause(program.why, request) {
                Some(cause) => cause,
                None => continue,
            };
            let other_kind = |k: &&usize| {
                let it = &before.programs[*k];
                it.priority == program.priority && it.suspend != program.suspend
            };
            let among = u64::from(woken.iter().filter(other_kind).count() >= 2);
            let row = self.causes.entry(cause).or_default();
            if program.suspend {
                row.with += 1;
                row.with_among += among;
            } else {
                row.without += 1;
                row.without_among += among;
            }
        }
        self.add_chain6(before, &woken);
    }

    fn add_chain6(&mut self, before: &Engine, woken: &[usize]) {
        let priority = |p: &usize| before.programs[p].priority;
        let state = |p: &usize| before.programs[p].state;
        let marked: Vec<usize> =
            woken.iter().copied().filter(|p| before.programs[p].suspend).collect();
        let there = before.chain(SUSPENDED);
        let equals = |p: &usize| marked.iter().filter(|k| priority(k) == priority(p)).count();
        let behind = |p: &usize| there.iter().any(|k| priority(k) == priority(p));
        let from = |wanted: u8| marked.iter().any(|p| state(p) == wanted);
        self.note("two equals enter chain 6 at once", marked.iter().any(|p| equals(p) >= 2));
        self.note("who wakes enters chain 6 behind an equal", marked.iter().any(behind));
        self.note("both chains wake into chain 6 at once", from(DISC) && from(GENERAL_WAIT));
    }

    /// Both tables, and the share of scripts in which somebody was marked.
    pub fn print(&self) -> String {
        let row = |name: &str, columns: [String; 4]| {
            let columns: String = columns.iter().map(|column| format!("{:>16}", column)).collect();
            format!("{:28}{}\n", name, columns)
        };
        let titles = ["without mark", "with it", "without, among", "with, among"];
        let mut text = row("woken", titles.map(String::from));
        for cause in CAUSES {
            let Woken { without, with, without_among, with_among } = self.woken(cause);
            text += &row(cause, [without, with, without_among, with_among].map(|n| n.to_string()));
        }
        text += &format!("\n{:64}{:>10}\n", "marks", "times");
        for row in ROWS {
            text += &format!("{:64}{:>10}\n", row, self.of(row));
        }
        let share = 100 * self.marked / self.scripts.max(1);
        let marked = format!("scripts with a mark, of {} ({} in a hundred)", self.scripts, share);
        text + &format!("{:64}{:>10}\n", marked, self.marked)
    }
}

/// Who woke, in the order in which they did: chain 5, then chain 3. A program that the call names
/// and ends did not wake.
fn woken(before: &Engine, after: &Engine) -> Vec<usize> {
    let waiting = [DISC, GENERAL_WAIT].into_iter().flat_map(|state| before.chain(state));
    let woke = |p: &usize| {
        let state = after.programs.get(p).map(|program| program.state);
        state == Some(SCHEDULED) || state == Some(SUSPENDED)
    };
    waiting.filter(woke).collect()
}

/// By what a program that waited for this woke.
fn cause(why: Why, request: Request) -> Option<&'static str> {
    use Request::*;
    let cause = match (why, request) {
        (Why::Tracks(_), Exec5(..)) => "tracks, by EXEC 5",
        (Why::Tracks(_), Exec5All) => "tracks, by EXEC 5 ALL",
        (Why::Tracks(_), Exec16(..)) => "tracks, by EXEC 16",
        (Why::Tracks(_), Of(..)) => "tracks, by OF",
        (Why::Son(_), Exec6) => "a son, by EXEC 6",
        (Why::Son(_), Of(_, 1)) => "a son, by OF 1",
        (Why::Son(_), Of(..)) => "a son, by OF 8",
        (Why::Lock(_), Clear(_)) => "a lock, by CLEAR",
        (Why::Lock(_), Free(_)) => "a lock, by FREE",
        (Why::Lock(_), Exec6 | Of(..)) => "a lock, by an ending",
        (Why::Number, Free(_)) => "any number, by FREE",
        (Why::Number, Exec6 | Of(..)) => "any number, by an ending",
        _ => return None,
    };
    Some(cause)
}

/// The program that a request names.
fn name_of(request: Request) -> Option<Name> {
    use Request::*;
    match request {
        Pr(name, _) | Ru(name) | Ss(name) | Go(name) | Exec9(name) | Exec10(name) => Some(name),
        _ => None,
    }
}
