//! Many ticks at once: the engine's two ways and a third one against each other, on tables of every
//! kind; and what of it comes up in scripts.

use comparer::corners::of_ticks;
use comparer::leaps::{self, REFUSED_11, ROWS};
use comparer::make;
use comparer::marks;
use comparer::prng::Prng;
use comparer::script::{generate, generate_within};
use comparer::{claims, CI_LINES, CI_SEEDS};
use engine::raw::{Raw, LINKS};
use engine::sheet::lines;
use engine::tables::CEILING;
use engine::ticks::{MOST_TICKS, ONE_BY_ONE};
use engine::{parse, sheet, Answer, Engine, Request};
use std::collections::BTreeMap;

/// What n ticks leave of tables, read off the records: the first due of a dormant program starts it,
/// and the k-th due of a timer is k - 1 intervals behind its first.
fn by_records(raw: &Raw, n: u64) -> (Raw, u64) {
    let end = raw.clock + n;
    let mut after = raw.clone();
    after.clock = end;
    let mut started = Vec::new();
    for (place, record) in after.records.iter_mut().enumerate() {
        if record.due == 0 || record.due > end {
            continue;
        }
        if record.state == 0 {
            record.state = 1;
            started.push((record.due, place + 1));
        }
        let passed = (1..).map(|k| record.due + k * record.interval).take(1_000_000);
        match record.interval {
            0 => record.due = 0,
            // Counted off where that is not too much.
            interval if n / interval < 1_000_000 => {
                record.due = passed.into_iter().find(|due| *due > end).expect("a due behind it");
            }
            interval => record.due += ((end - record.due) / interval + 1) * interval,
        }
    }
    started.sort_unstable();
    for (_, p) in &started {
        put_behind_equals(&mut after, *p);
    }
    (after, started.len() as u64)
}

/// Into chain 1, along its links.
fn put_behind_equals(raw: &mut Raw, p: usize) {
    let priority = raw.records[p - 1].priority;
    let mut slot = 1;
    loop {
        let next = usize::from(raw.links[slot]);
        if next == 0 || raw.records[next - 1].priority > priority {
            break;
        }
        slot = LINKS + next;
    }
    raw.links[LINKS + p] = raw.links[slot];
    raw.links[slot] = p as u8;
}

/// All ways to make n ticks on tables, which have room for them, come to the same.
fn check(raw: &Raw, n: u64) {
    let engine = raw.engine().expect("sound tables");
    let (expected, started) = by_records(raw, n);
    assert!(expected.sound(), "{} ticks: {:?}", n, raw);
    let mut jumped = engine.clone();
    let counted = jumped.due_by_due(n);
    assert_eq!((Raw::of(&jumped), counted), (expected.clone(), started), "{} ticks: {:?}", n, raw);
    let line = format!("TICK,{}", n);
    let answered = (expected.clone(), Answer::new(0, started));
    assert_eq!(raw.line(line.as_bytes(), &mut []), answered, "{} ticks: {:?}", n, raw);
    if n <= AFFORDED {
        let mut ticked = engine.clone();
        let counted = ticked.one_by_one(n);
        assert_eq!((Raw::of(&ticked), counted), (expected.clone(), started), "{}: {:?}", n, raw);
        // And by lines of one tick each.
        let mut lines = engine;
        for _ in 0..n {
            lines.tick().expect("there is room");
        }
        assert_eq!(Raw::of(&lines), expected);
    }
}

/// Ticks that are made one by one here.
const AFFORDED: u64 = 700;

/// Numbers of ticks for these tables: few, around dues and intervals, many, up to the ceiling.
fn numbers(prng: &mut Prng, raw: &Raw) -> Vec<u64> {
    let engine = raw.engine().expect("sound tables");
    let mut numbers = vec![1, 2, 3, ONE_BY_ONE, ONE_BY_ONE + 1, MOST_TICKS];
    numbers.extend((0..6).map(|_| claims::ticks(prng, &engine)));
    for record in raw.records.iter().filter(|record| record.due > 0) {
        let (ahead, interval) = (record.due - raw.clock, record.interval);
        for about in [ahead, interval, 2 * interval, ahead + interval, ahead + 2 * interval] {
            numbers.extend([about.saturating_sub(1), about, about + 1]);
        }
    }
    let room = CEILING - raw.clock;
    numbers.extend([room.saturating_sub(1), room]);
    numbers.retain(|n| (1..=MOST_TICKS.min(room)).contains(n));
    numbers.sort_unstable();
    numbers.dedup();
    numbers
}

#[test]
fn all_ways_agree() {
    let mut prng = Prng::new(3);
    let (mut calls, mut near, mut beyond) = (0, 0, 0);
    for round in 0..150 {
        let mut all = make::reached(&mut prng, 3);
        all.extend([make::unreached(&mut prng), make::unreached(&mut prng)]);
        for (place, raw) in all.iter_mut().enumerate() {
            if (round + place) % 2 == 0 {
                make::due_soon(&mut prng, raw);
            }
            for n in numbers(&mut prng, raw) {
                check(raw, n);
                calls += 1;
                near += u64::from(raw.clock + n == CEILING);
                beyond += u64::from(by_records(raw, n).0.records.iter().any(|it| it.due > CEILING));
            }
        }
    }
    assert!(calls > 10_000 && near > 30 && beyond > 100, "{} {} {}", calls, near, beyond);
}

/// What is refused leaves the tables as they are: 3 first, and then 11 as a whole.
#[test]
fn refusals() {
    let mut prng = Prng::new(5);
    for _ in 0..400 {
        let raw = make::unreached(&mut prng);
        let room = CEILING - raw.clock;
        let any = prng.number();
        for n in [0, 1, MOST_TICKS, MOST_TICKS + 1, room, room + 1, 1 << 32, (1 << 32) + 1, any] {
            let number = match n {
                0 | 100_000_001.. => 3,
                _ if n > room => 11,
                _ => 0,
            };
            let (after, answer) = raw.call(|engine| engine.ticks(n));
            assert_eq!(answer.number, number, "{} at {}", n, raw.clock);
            assert!(number == 0 || (after == raw && answer == Answer::new(number, 0)));
        }
        // Tables that are not sound come before everything.
        let mut bad = raw.clone();
        bad.clock = CEILING + 1;
        for line in ["TICK,1", "TICK,0", "TICK,", "TICK,1,2", "TICK,9999999999"] {
            let (after, answer) = bad.line(line.as_bytes(), &mut []);
            assert_eq!((&after, answer), (&bad, Answer::new(14, 0)));
        }
    }
}

/// Scripts in which each `TICK,n` with few ticks is as many TICK lines: the same but for the answers
/// of these lines, of which the values sum up.
#[test]
fn as_many_single_lines() {
    let mut replaced = 0;
    for seed in 1..60 {
        let script = generate_within(seed, 150, 40);
        let (mut one, mut other) = (Engine::smallest(), Engine::smallest());
        for line in lines(&script) {
            let n = match parse(line) {
                Some(Request::Ticks(n)) if n > 0 && n <= 40 => n,
                _ => {
                    assert_eq!(one.line(line, &mut [0; 8_704]), other.line(line, &mut [0; 8_704]));
                    continue;
                }
            };
            let sum: u64 = (0..n)
                .map(|_| match other.line(b"TICK", &mut []).value {
                    engine::Value::Number(value) => value,
                    engine::Value::Time(_) => panic!("no time was asked"),
                })
                .sum();
            assert_eq!(one.line(line, &mut []), Answer::new(0, sum));
            assert_eq!(Raw::of(&one), Raw::of(&other));
            replaced += 1;
        }
    }
    assert!(replaced > 300, "{}", replaced);
}

/// As many lines with a number as without one, but for those by which years pass, and each row comes
/// up.
#[test]
fn leaps_come_up() {
    let count = marks::Count::of_scripts(CI_SEEDS, CI_LINES).leaps;
    let fixed = of_ticks().map(|(_, input)| input).join(&b'\n');
    let in_fixed = leaps::Count::of_input(&fixed);
    let text = count.print(["scripts", "fixed inputs"], &in_fixed);
    println!("{}", text);
    for row in ROWS {
        assert!(count.of(row) >= 20 || row == REFUSED_11, "{}: {}", row, text);
        assert!(in_fixed.of(row) >= 2, "{}: {}", row, text);
    }
    assert!(in_fixed.of(REFUSED_11) >= 20, "{}", text);
    assert_eq!(text.lines().count(), ROWS.len() + 1);
    let mut kinds: BTreeMap<bool, u64> = BTreeMap::new();
    for seed in CI_SEEDS {
        for line in lines(&generate(seed, CI_LINES)) {
            match parse(line) {
                // By which a year passes.
                Some(Request::Ticks(MOST_TICKS)) => {}
                Some(request @ (Request::Tick | Request::Ticks(_))) => {
                    *kinds.entry(request == Request::Tick).or_insert(0) += 1;
                }
                _ => {}
            }
        }
    }
    let (single, many) = (kinds[&true], kinds[&false]);
    assert!(10 * single.abs_diff(many) < single, "{} single, {} many", single, many);
}

/// The fixed inputs come to where they are meant to come.
#[test]
fn the_way_to_the_ceiling() {
    let [_, (_, days), (_, ceiling), _] = of_ticks();
    let printed = String::from_utf8(sheet(&ceiling)).expect("sheet prints text");
    let clocks: Vec<&str> =
        printed.lines().filter_map(|line| line.strip_prefix("clock=")).collect();
    for left in [0, 1, 2, 100, 257, 600, 6_000, 10_000, 100_000_000] {
        let clock = (CEILING - left).to_string();
        assert!(clocks.iter().filter(|met| **met == clock).count() >= 3, "{} left", left);
    }
    let beyond = |line: &str| line.strip_prefix("due=").and_then(|due| due.parse::<u64>().ok());
    assert!(printed.lines().filter_map(beyond).filter(|due| *due > CEILING).count() > 20);
    let printed = String::from_utf8(sheet(&days)).expect("sheet prints text");
    for time in [
        "1975.1.23.59.59.99",
        "1975.2.0.0.0.0",
        "1975.365.23.59.59.99",
        "1976.1.0.0.0.0",
        "1976.366.0.0.0.0",
        "1976.366.23.59.59.99",
        "1977.1.0.0.0.0",
        "1977.8.23.59.59.99",
    ] {
        let line = format!("answer=0,value={}", time);
        assert!(printed.lines().any(|printed| printed == line), "{}", time);
    }
}

/// Cases for the definitions have few ticks in a line; all else of such a script is as often there.
#[test]
fn few_ticks_for_the_definitions() {
    let (mut lines_with, mut refused) = (0, 0);
    for seed in CI_SEEDS {
        for line in lines(&generate_within(seed, 60, 30)) {
            match parse(line) {
                Some(Request::Ticks(n)) if (1..=MOST_TICKS).contains(&n) => {
                    assert!(n <= 30);
                    lines_with += 1;
                }
                Some(Request::Ticks(_)) => refused += 1,
                _ => {}
            }
        }
    }
    assert!(lines_with > 1_000 && refused > 100, "{} {}", lines_with, refused);
}
