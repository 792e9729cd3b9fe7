//! Request (iii): many ticks at once. Expected answers are worked out by hand from its text. Programs
//! are numbered as they are loaded.

mod common;
use common::{answers, chain, last, page};
use engine::raw::{Raw, RawRecord, RawWhy, LINKS, UNUSED};
use engine::{Answer, Engine};

const CEILING: u64 = 1_000_000_000_000;

/// C runs; A and B are dormant, all equals.
const THREE: &str = "FRESH,1,1,0 LOAD,A,10 LOAD,B,10 LOAD,C,10 RU,C";

/// The same with timers, given as multiple and offset in ticks.
fn timers(a: &str, b: &str) -> String {
    format!("{} EXEC,12,A,1,{} EXEC,12,B,1,{}", THREE, a, b)
}

fn dues(lines: &str) -> Vec<String> {
    page(lines, "due")
}

#[test]
fn by_due_then_by_number() {
    // B at tick 1, A at tick 3: the later one has the lower number.
    let turned = format!("{} TICK,3", timers("0,3", "2,1"));
    assert_eq!((last(&turned), chain(&turned, 1)), ("0,2".into(), "3,2,1".into()));
    assert_eq!(dues(&turned), ["-", "5", "-"]);
    let at_once = format!("{} TICK,3", timers("1,2", "0,2"));
    assert_eq!((last(&at_once), chain(&at_once, 1)), ("0,2".into(), "3,1,2".into()));
    assert_eq!(dues(&at_once), ["4", "-", "-"]);
    // Over many ticks the same, in seconds.
    let seconds = format!("{} EXEC,12,A,2,0,30 EXEC,12,B,2,20,10 TICK,3000", THREE);
    assert_eq!((last(&seconds), chain(&seconds, 1)), ("0,2".into(), "3,2,1".into()));
    assert_eq!(dues(&seconds), ["-", "5000", "-"]);
}

#[test]
fn the_last_tick_and_the_one_behind_it() {
    for (n, value, due) in [("1", "0,0", "2"), ("2", "0,1", "5"), ("3", "0,1", "5")] {
        let script = format!("{} TICK,{}", timers("3,2", "0,100"), n);
        assert_eq!((last(&script), &dues(&script)[0][..]), (value.into(), due));
    }
    for (n, value, due) in
        [("4999", "0,0", "5000"), ("5000", "0,1", "6000"), ("5001", "0,1", "6000")]
    {
        let script = format!("{} EXEC,12,A,2,10,50 TICK,{}", THREE, n);
        assert_eq!((last(&script), &dues(&script)[0][..]), (value.into(), due));
    }
    // Due again at the last tick: it has moved on from there.
    for (n, due) in
        [("5999", "6000"), ("6000", "7000"), ("6001", "7000"), ("99999999", "100000000")]
    {
        let script = format!("{} EXEC,12,A,2,10,50 TICK,{}", THREE, n);
        assert_eq!((last(&script), &dues(&script)[0][..]), ("0,1".into(), due));
    }
}

/// Started once, however often it is due; and again when it has ended.
#[test]
fn once_in_a_call() {
    let script = format!("{} TICK,100", timers("1,1", "7,7"));
    assert_eq!((last(&script), chain(&script, 1)), ("0,2".into(), "3,1,2".into()));
    assert_eq!(dues(&script), ["101", "105", "-"]);
    assert!(answers(&format!("{} TICK,100 EXEC,6 EXEC,6 EXEC,6 TICK,1 TICK,3 TICK,1", script))
        .ends_with("0,2 0,0 0,0 0,0 0,0 0,1 0,1 0,0"));
    let all = format!("{} TICK,100000000", timers("1,1", "3,1"));
    assert_eq!((last(&all), chain(&all, 1)), ("0,2".into(), "3,1,2".into()));
    assert_eq!(dues(&all), ["100000001", "100000003", "-"]);
    assert_eq!(page(&all, "clock"), ["100000000"]);
}

#[test]
fn an_idle_night() {
    let script = format!("{} EXEC,12,A,4,9,13 TICK,4320000", THREE);
    assert_eq!((last(&script), page(&script, "clock")), ("0,0".into(), vec!["4320000".into()]));
    assert_eq!(dues(&script), ["4680000", "-", "-"]);
    assert_eq!(last(&format!("{} EXEC,11", script)), "0,1975.1.12.0.0.0");
    assert_eq!(answers("TICK,100000000 TICK,1 TICK PAGE")[..11], *"0,0 0,0 0,0");
    assert_eq!(page("TICK,100000000 TICK,1 TICK", "clock"), ["100000002"]);
}

/// The caller itself, one that is suspended, and those who wait, marked or not: they stay.
#[test]
fn programs_that_are_not_dormant() {
    for n in ["2", "300"] {
        for (timer, left) in [("0,2", "-"), ("5,2", if n == "2" { "7" } else { "302" })] {
            for (state, asked) in [
                ("1", ""),
                ("6", "EXEC,7"),
                ("3", "RN,ALLOC,L,0"),
                ("3", "RN,ALLOC,L,0 SS,A"),
                ("5", "EXEC,4,1,0"),
                ("5", "EXEC,4,1,0 SS,A"),
                ("3", "EXEC,9,B"),
            ] {
                let start = format!("{} EXEC,12,A,1,{} PR,A,1 RU,A {}", THREE, timer, asked);
                let script = format!("{} TICK,{}", start, n);
                assert_eq!(last(&script), "0,0", "{}", script);
                assert_eq!((&page(&script, "state")[0][..], &dues(&script)[0][..]), (state, left));
                assert_eq!(page(&script, "suspend"), page(&start, "suspend"));
                for state in [1, 3, 5, 6] {
                    assert_eq!(chain(&script, state), chain(&start, state));
                }
            }
        }
    }
}

/// A timer that is spent while its program runs never starts it.
#[test]
fn a_lost_once_is_lost() {
    let script = format!("{} EXEC,12,C,1,0,300 TICK,400 EXEC,6 TICK,100000000", THREE);
    assert!(answers(&script).ends_with("0,300 0,0 0,0 0,0"));
    let script = format!("{} EXEC,12,C,1,0,300 TICK,299 EXEC,6 TICK,100000000", THREE);
    assert!(answers(&script).ends_with("0,300 0,0 0,0 0,1"));
}

#[test]
fn numbers_and_forms() {
    assert_eq!(answers("TICK,1 TICK,100000000 TICK,99999999"), "0,0 0,0 0,0");
    assert_eq!(answers("TICK,0 TICK,100000001 TICK,4294967297 TICK,9999999999"), "3,0 3,0 3,0 3,0");
    assert_eq!(
        answers("TICK, TICK,01 TICK,1,2 TICK,12345678901 TICK,A"),
        "13,0 13,0 13,0 13,0 13,0"
    );
    assert_eq!(page("TICK,0 TICK,100000001 TICK, TICK,1,2", "clock"), ["0"]);
}

/// A is dormant, B runs; A is due and B is due.
fn at_clock(clock: u64, a: (u64, u64), b: (u64, u64)) -> Raw {
    let (engine, _) = Engine::fresh(1, 0, 0, 1975);
    let mut raw = Raw::of(&engine);
    raw.clock = clock;
    for (place, (state, (due, interval))) in [(0, a), (1, b)].into_iter().enumerate() {
        let name = [b'A' + place as u8, b' ', b' ', b' ', b' '];
        raw.records[place] = RawRecord { used: true, name, state, due, interval, ..UNUSED };
    }
    raw.links[1] = 2;
    assert!(raw.sound());
    raw
}

fn line(raw: &Raw, line: &str) -> (Raw, Answer) {
    raw.line(line.as_bytes(), &mut [])
}

/// As a whole or not at all, and 3 before 11.
#[test]
fn near_the_ceiling() {
    let raw = at_clock(CEILING - 1_000, (CEILING - 500, 300), (CEILING, 1));
    for n in [1_001, 99_999_999, 100_000_000] {
        assert_eq!(line(&raw, &format!("TICK,{}", n)), (raw.clone(), Answer::new(11, 0)));
    }
    for n in [0, 100_000_001, 9_999_999_999_u64] {
        assert_eq!(line(&raw, &format!("TICK,{}", n)), (raw.clone(), Answer::new(3, 0)));
    }
    let (after, answer) = line(&raw, "TICK,1000");
    assert_eq!((answer, after.clock), (Answer::new(0, 1), CEILING));
    // A due may lie beyond the ceiling; the clock may not.
    assert_eq!((after.records[0].due, after.records[1].due), (CEILING + 100, CEILING + 1));
    assert_eq!(after.walk(1), [2, 1]);
    for (asked, number) in [("TICK", 11), ("TICK,1", 11), ("TICK,100000000", 11), ("TICK,0", 3)] {
        assert_eq!(line(&after, asked), (after.clone(), Answer::new(number, 0)), "{}", asked);
    }
    let (before, _) = line(&raw, "TICK,999");
    assert_eq!(line(&before, "TICK,2"), (before.clone(), Answer::new(11, 0)));
    let (last, answer) = line(&before, "TICK,1");
    assert_eq!((last, answer), (after, Answer::new(0, 0)));
    let exact = at_clock(CEILING - 100_000_000, (CEILING, 0), (CEILING + 1, 0));
    assert_eq!(line(&exact, "TICK,100000001").1, Answer::new(3, 0));
    let (after, answer) = line(&exact, "TICK,100000000");
    assert_eq!((answer, after.clock), (Answer::new(0, 1), CEILING));
    assert_eq!((after.records[0].due, after.records[1].due), (0, CEILING + 1));
}

#[test]
fn not_sound_comes_first() {
    let mut raw = at_clock(7, (8, 1), (9, 0));
    raw.links[LINKS + 2] = 2;
    for asked in ["TICK,1", "TICK,0", "TICK,"] {
        assert_eq!(line(&raw, asked), (raw.clone(), Answer::new(14, 0)));
    }
}

/// Wide numbers of a call that no line has.
#[test]
fn wide_numbers() {
    let raw = at_clock(CEILING, (CEILING + 1, 0), (CEILING + 2, 0));
    for n in [u64::MAX, u64::MAX - CEILING + 1, 1 << 32, (1 << 32) + 1, 1 << 63] {
        assert_eq!(raw.call(|engine| engine.ticks(n)), (raw.clone(), Answer::new(3, 0)));
    }
}

/// Both ways, each against the other: three programs in every choice of states, with timers that
/// come due at the same moments and at others.
#[test]
fn one_by_one_and_due_by_due() {
    let dues = [(0, 0), (1, 0), (1, 1), (2, 3), (5, 2), (6, 0), (9, 4)];
    let mut started = [0; 4];
    for states in 0..125_usize {
        for timers in 0..dues.len().pow(3) {
            // Not all of them, but each with each.
            if (states + timers) % 5 > 0 {
                continue;
            }
            let choice = |p: u32| dues[timers / dues.len().pow(p) % dues.len()];
            let raw = three(states, [choice(0), choice(1), choice(2)]);
            let engine = raw.engine().expect("sound tables");
            for n in [1, 2, 5, 6, 7, 13] {
                let (mut one, mut other) = (engine.clone(), engine.clone());
                let value = one.one_by_one(n);
                assert_eq!((value, other.due_by_due(n)), (value, value), "{} ticks: {:?}", n, raw);
                assert_eq!(Raw::of(&other), Raw::of(&one), "{} ticks: {:?}", n, raw);
                started[value as usize] += 1;
            }
        }
    }
    assert!(started.iter().all(|times| *times > 100), "{:?}", started);
}

/// Three equals, of which each is in one of five states, at clock 100; dues are told from there.
fn three(states: usize, timers: [(u64, u64); 3]) -> Raw {
    let (engine, _) = Engine::fresh(1, 0, 0, 1975);
    let mut raw = Raw::of(&engine);
    raw.clock = 100;
    let mut ends = [0, 1, 0, 3, 0, 5, 6];
    for (place, (due, interval)) in timers.into_iter().enumerate() {
        let state = [0, 1, 3, 5, 6][states / 5_usize.pow(place as u32) % 5];
        let why = match state {
            3 => RawWhy::Number,
            5 => RawWhy::Tracks(1),
            _ => RawWhy::Nothing,
        };
        let name = [b'A' + place as u8, b' ', b' ', b' ', b' '];
        let due = if due > 0 { 100 + due } else { 0 };
        let suspend = matches!(state, 3 | 5) && place == 1;
        raw.records[place] = RawRecord {
            used: true,
            name,
            priority: 10,
            state: state as u64,
            why,
            due,
            interval,
            suspend,
        };
        if state > 0 {
            raw.links[ends[state]] = place as u8 + 1;
            ends[state] = LINKS + place + 1;
        }
    }
    assert!(raw.sound(), "{:?}", raw);
    raw
}
