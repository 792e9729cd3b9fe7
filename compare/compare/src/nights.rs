//! Fixed inputs for request (iii), many ticks at once: timers of two programs, in every order of
//! their dues; programs in every state; days and years; and the way to the ceiling. And for request
//! (iv): the ends of years from every start year.

use crate::years::{pass, turns, DAY};
use engine::tables::{CEILING, EARLIEST_YEAR, LATEST_YEAR};

/// Multiple and offset of a timer, in its unit.
type Set = (u64, u64);

const FIRST: [Set; 7] = [(0, 1), (0, 3), (1, 1), (1, 2), (2, 1), (2, 3), (3, 2)];
const SECOND: [Set; 5] = [(0, 1), (0, 2), (1, 2), (2, 2), (3, 1)];
const OF_ONE: [Set; 5] = [(0, 1), (0, 3), (1, 1), (2, 3), (3, 2)];

/// Into every state but dormant, and into those where it waits with the mark of request (ii); the
/// last is dormant again. A runs when it asks for these; then B, its equal, is scheduled.
const STATES: [&str; 9] = [
    "",
    "EXEC,7",
    "RN,ALLOC,L,0",
    "RN,ALLOC,L,0 SS,A",
    "EXEC,4,1,0",
    "EXEC,4,1,0 SS,A",
    "EXEC,9,B",
    "EXEC,9,B SS,A",
    "EXEC,6",
];

/// Resolutions, the ticks of their units, and how many ticks are made at once: all that are few, and
/// some around each multiple of a unit.
fn units() -> [(u64, Vec<u64>); 2] {
    let around = |k: u64| [100 * k - 1, 100 * k, 100 * k + 1];
    [(1, (1..=7).collect()), (2, (1..=6).flat_map(around).collect())]
}

/// Lines that are written with blanks between them.
fn add(lines: &mut Vec<String>, more: &str) {
    lines.extend(more.split_whitespace().map(String::from));
}

/// All of them, with a page after the ticks, and one after one more.
pub fn every_moment() -> Vec<u8> {
    let mut lines = Vec::new();
    for (unit, counts) in units() {
        for n in &counts {
            for (one, two) in FIRST.iter().flat_map(|one| SECOND.map(|two| (one, two))) {
                add(&mut lines, "FRESH,1,1,0 LOAD,A,10 LOAD,B,10 LOAD,C,10 RU,C");
                add(&mut lines, &format!("EXEC,12,A,{},{},{}", unit, one.0, one.1));
                add(&mut lines, &format!("EXEC,12,B,{},{},{}", unit, two.0, two.1));
                add(&mut lines, &format!("TICK,{} PAGE TICK PAGE", n));
            }
            for (state, (multiple, offset)) in
                STATES.iter().flat_map(|state| OF_ONE.map(|set| (state, set)))
            {
                add(&mut lines, "FRESH,1,1,0 LOAD,A,5 LOAD,B,5 LOAD,C,20 RU,C");
                add(&mut lines, &format!("EXEC,12,A,{},{},{}", unit, multiple, offset));
                add(&mut lines, &format!("RU,A {} RU,B TICK,{} PAGE TICK,1 PAGE", state, n));
            }
        }
    }
    lines.join("\n").into_bytes()
}

/// The time around the ends of hours, days and years.
pub fn calendar() -> Vec<u8> {
    const HOUR: u64 = 360_000;
    let mut lines = Vec::new();
    add(&mut lines, "LOAD,A,10 LOAD,B,10 LOAD,C,10 RU,A EXEC,12,B,4,24,24 EXEC,12,C,4,1,1");
    for _ in 1..=25 {
        add(&mut lines, &format!("TICK,{} EXEC,11 TICK EXEC,11", HOUR - 1));
    }
    add(&mut lines, &format!("PAGE TICK,{} EXEC,11 TICK,1 EXEC,11", 23 * HOUR - 1));
    for day in 3..=740 {
        add(&mut lines, &format!("TICK,{} EXEC,11 TICK EXEC,11", DAY - 1));
        if day % 100 == 0 {
            add(&mut lines, "PR,A,1 PAGE");
        }
    }
    add(&mut lines, "PAGE");
    lines.join("\n").into_bytes()
}

/// The time before the last day of a year, at the first and the last tick of that day, and at the first
/// tick of the next year, and around day 60 of each fourth year: from each start year the first two
/// years, and from the first and the last of them all years, up to the ceiling.
pub fn years() -> Vec<u8> {
    let mut lines = Vec::new();
    for start in EARLIEST_YEAR..=LATEST_YEAR {
        add(&mut lines, &format!("FRESH,1,0,0,{} LOAD,A,1 RU,A EXEC,11 PAGE", start));
        let mut clock = 0;
        let all = [EARLIEST_YEAR, LATEST_YEAR].contains(&start);
        let turns = turns(start);
        let turns = if all { &turns[..] } else { &turns[..2] };
        for (year, turn) in turns {
            for moment in [turn - DAY - 1, turn - DAY, turn - 1, *turn] {
                pass(&mut lines, &mut clock, moment);
                add(&mut lines, "EXEC,11");
            }
            // The leap day, and the day that is not one.
            if year % 4 == 0 {
                for moment in [turn + 59 * DAY - 1, turn + 59 * DAY, turn + 60 * DAY] {
                    pass(&mut lines, &mut clock, moment.min(CEILING));
                    add(&mut lines, "EXEC,11");
                }
            }
            if year % 50 == 0 {
                add(&mut lines, "PAGE");
            }
        }
        if all {
            pass(&mut lines, &mut clock, CEILING);
        }
        add(&mut lines, "EXEC,11 PAGE");
    }
    lines.join("\n").into_bytes()
}

/// Asked at the ceiling: all of it is refused, or leaves the clock where it is.
const AT_THE_CEILING: &str = "PAGE TICK TICK,1 TICK,2 TICK,257 TICK,99999999 TICK,100000000 TICK,0 \
                              TICK,100000001 TICK,4294967297 TICK,9999999999 TICK, TICK,01 TICK,1,1 \
                              PAGE EXEC,11 EXEC,12,A,1,1,1 EXEC,12,B,4,4095,4095 EXEC,12,C,1,0,4095 \
                              PAGE TICK TICK,1 TICK,100000000 PAGE EXEC,6 EXEC,11 PAGE";

/// All the way, in the largest steps there are, and once more: then in smaller ones, each first with
/// one tick too many.
pub fn ceiling() -> Vec<u8> {
    let mut lines = Vec::new();
    start(&mut lines);
    steps(&mut lines, 10_000);
    add(&mut lines, AT_THE_CEILING);
    start(&mut lines);
    steps(&mut lines, 9_999);
    // What is left, and how much of it goes next.
    let mut left: u64 = 100_000_000;
    for step in [99_990_000, 4_000, 5_400, 343, 157, 98, 1, 1] {
        add(&mut lines, "EXEC,12,A,1,3,60 EXEC,12,B,1,1,1 EXEC,12,C,2,0,100 PAGE TICK,100000001");
        add(&mut lines, &format!("TICK,{} PAGE TICK,0 PAGE", left + 1));
        if left <= 10_000 {
            add(&mut lines, "TICK,100000000 PAGE");
            // Due at the ceiling itself, or beyond it.
            let offset = left.min(4_095);
            add(
                &mut lines,
                &format!("EXEC,12,A,1,{},{} EXEC,12,E,1,0,{}", left % 4_096, offset, offset),
            );
        }
        add(&mut lines, &format!("TICK,{} PAGE EXEC,11 EXEC,6 EXEC,6", step));
        left -= step;
    }
    assert_eq!(left, 0, "the ceiling is reached");
    add(&mut lines, "RU,D");
    add(&mut lines, AT_THE_CEILING);
    lines.join("\n").into_bytes()
}

fn start(lines: &mut Vec<String>) {
    add(lines, "FRESH,2,0,1 LOAD,A,10 LOAD,B,10 LOAD,C,10 LOAD,D,20 LOAD,E,10 RU,D");
    add(lines, "EXEC,12,A,4,4095,4095 EXEC,12,B,1,1,1 EXEC,12,C,4,400,1 EXEC,12,E,3,7,4001");
}

/// So many times 100,000,000 ticks. Now and then those end who were started, so that they are started
/// again.
fn steps(lines: &mut Vec<String>, count: usize) {
    for place in 1..=count {
        lines.push(String::from("TICK,100000000"));
        if place % 97 == 0 {
            add(lines, "EXEC,6 EXEC,6 EXEC,11");
        }
        if place % 1_000 == 0 {
            add(lines, "PAGE");
        }
    }
}
