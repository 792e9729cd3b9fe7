//! Rules that no run from FRESH can show: calls on sound tables that were put by hand.

use engine::raw::{Raw, RawRecord, RawWhy, GLOBAL, LINKS, UNUSED};
use engine::{Answer, Engine};

/// One program runs (1, priority 5), one is dormant (4), two are in chain 3 (2, 3).
fn tables(why2: RawWhy, why3: RawWhy) -> Raw {
    let (engine, _) = Engine::fresh(4, 0, 2, 1975);
    let mut raw = Raw::of(&engine);
    let record = |name: &[u8; 5], priority, state, why| RawRecord {
        used: true,
        name: *name,
        priority,
        state,
        why,
        ..UNUSED
    };
    raw.records[0] = record(b"A    ", 5, 1, RawWhy::Nothing);
    raw.records[1] = record(b"B    ", 10, 3, why2);
    raw.records[2] = record(b"C    ", 10, 3, why3);
    raw.records[3] = record(b"D    ", 10, 0, RawWhy::Nothing);
    raw.links[1] = 1;
    raw.links[3] = 3;
    raw.links[LINKS + 3] = 2;
    assert!(raw.sound() || why2 == RawWhy::Son(1) && why3 == RawWhy::Son(1));
    raw
}

fn line(raw: &Raw, line: &str) -> (Raw, Answer) {
    raw.line(line.as_bytes(), &mut [])
}

#[test]
fn clear_already_wakes_none() {
    let mut raw = tables(RawWhy::Lock(1), RawWhy::Lock(1));
    raw.numbers[0].owner = GLOBAL;
    let (same, answer) = line(&raw, "RN,CLEAR,1");
    assert_eq!((same, answer), (raw, Answer::new(0, 0)));
}

#[test]
fn lock_waiters_of_an_unlocked_number_wake_when_it_is_deallocated() {
    let mut raw = tables(RawWhy::Lock(1), RawWhy::Number);
    raw.numbers[0].owner = 1;
    let (freed, answer) = line(&raw, "RN,FREE,1");
    assert_eq!(answer, Answer::new(0, 2));
    assert_eq!(freed.walk(1), [1, 3, 2]);
    let (ended, answer) = line(&raw, "EXEC,6");
    assert_eq!(answer, Answer::new(0, 2));
    assert_eq!(ended.walk(1), [3, 2]);
}

#[test]
fn a_dormant_owner_and_locker_loses_both() {
    let mut raw = tables(RawWhy::Lock(2), RawWhy::Number);
    raw.numbers[0].owner = 4;
    raw.numbers[0].lock = 1;
    raw.numbers[1].owner = GLOBAL;
    raw.numbers[1].lock = 4;
    raw.tracks[3] = 4;
    let (ended, answer) = line(&raw, "OF,D,8");
    assert_eq!(answer, Answer::new(0, 1));
    assert_eq!(ended.walk(1), [1, 3, 2]);
    assert_eq!((ended.numbers[0].owner, ended.numbers[0].lock), (0, 0));
    assert_eq!((ended.numbers[1].owner, ended.numbers[1].lock), (GLOBAL, 0));
    assert_eq!(ended.records[3], UNUSED);
}

#[test]
fn fathers_of_each_other() {
    let raw = tables(RawWhy::Son(3), RawWhy::Son(2));
    let (ended, answer) = line(&raw, "OF,B,1");
    assert_eq!(answer, Answer::new(0, 0));
    assert_eq!((ended.walk(1), ended.walk(3)), (vec![1, 3], vec![]));
    assert_eq!(ended.records[1].state, 0);
    assert!(ended.sound());
}

#[test]
fn a_waiter_that_locks_the_number_itself() {
    let mut raw = tables(RawWhy::Lock(1), RawWhy::Lock(1));
    raw.numbers[0].owner = 2;
    raw.numbers[0].lock = 2;
    let (ended, answer) = line(&raw, "OF,B,1");
    assert_eq!(answer, Answer::new(0, 0));
    // B itself has left chain 3 before the walk.
    assert_eq!((ended.walk(1), ended.walk(3)), (vec![1, 3], vec![]));
}

#[test]
fn two_waiters_of_one_son_are_not_sound() {
    let raw = tables(RawWhy::Son(1), RawWhy::Son(1));
    let (same, answer) = line(&raw, "EXEC,6");
    assert_eq!((same, answer), (raw, Answer::new(14, 0)));
}

#[test]
fn page_through_a_line_needs_its_buffer() {
    let raw = tables(RawWhy::Lock(1), RawWhy::Number);
    let length = raw.engine().expect("sound tables").page_bytes().len();
    let mut short = vec![7; length - 1];
    let (same, answer) = raw.line(b"PAGE", &mut short);
    assert_eq!((same, answer), (raw.clone(), Answer::new(12, length as u64)));
    assert!(short.iter().all(|b| *b == 7));
    let mut exact = vec![7; length];
    assert_eq!(raw.line(b"PAGE", &mut exact).1, Answer::new(0, length as u64));
    assert!(exact.starts_with(b"page=rte2\n") && exact.ends_with(b"end=page\n"));
}

/// The longest page there is: 8,196 bytes, below 8,704. Each of 32 programs waits for tracks and is
/// marked, and the year is not 1975; without that line, of 10 bytes, it is 8,186, and without the
/// marks as well, 10 bytes each, 7,866.
#[test]
fn the_longest_page() {
    let (engine, _) = Engine::fresh(256, 0, 16, 2099);
    let mut raw = Raw::of(&engine);
    raw.clock = 1_000_000_000_000;
    for place in 0..32 {
        let mut name = *b"PPPPP";
        name[4] = if place < 10 { b'0' + place as u8 } else { b'A' + place as u8 - 10 };
        raw.records[place] = RawRecord {
            used: true,
            name,
            priority: 32_767,
            state: 5,
            why: RawWhy::Tracks(256),
            due: 1_001_474_200_000,
            interval: 1_474_200_000,
            suspend: true,
        };
        raw.links[if place == 0 { 5 } else { LINKS + place }] = place as u8 + 1;
    }
    for track in 0..256 {
        raw.tracks[track] = if track % 2 == 0 { GLOBAL } else { 32 };
    }
    for number in &mut raw.numbers {
        number.owner = GLOBAL;
        number.lock = 32;
    }
    let page = raw.engine().expect("sound tables").page_bytes();
    println!("the longest page has {} bytes", page.len());
    assert_eq!(page.len(), 8_196);
    assert_eq!(page.len() - b"year=2099\n".len(), 8_186);
    assert_eq!(page.len() - b"year=2099\n".len() - 32 * b"suspend=1\n".len(), 7_866);
    assert_eq!(counted(), page.len());
}

fn digits(number: u64) -> usize {
    number.to_string().len()
}

/// The longest that each part of a page can be, whatever the others are, summed up; only the lines
/// of tracks are counted together with T and S, over all of these.
fn counted() -> usize {
    let line = |key: &str, longest: usize| key.len() + 1 + longest + 1;
    let ceiling = digits(1_000_000_000_000);
    let due = digits(1_000_000_000_000 + 1_474_200_000);
    let head = line("page", 4) + line("clock", ceiling) + line("year", 4) + line("numbers", 2);
    // Why and mark of each state: none in 0, 1 and 6.
    let whys = ["-", "son:32", "lock:16", "number", "tracks:256"];
    let why =
        |why: &&str| line("why", why.len()) + if **why == *"-" { 0 } else { line("suspend", 1) };
    let why = whys.iter().map(why).max().unwrap_or(0);
    let timer = line("due", due) + line("interval", digits(1_474_200_000));
    let rest = line("name", 5) + line("priority", 5) + line("state", 1) + why + timer;
    let records: usize = (1..=32).map(|id| line("id", digits(id)) + rest).sum();
    // All in one chain have the most commas.
    let members: usize = (1..=32).map(digits).sum();
    let chains = 4 * line("chain1", 0) + members + 31;
    let numbers: usize = (1..=16).map(|r| line("number", digits(r) + ":global:32".len())).sum();
    head + line("programs", 2) + records + chains + tracks() + numbers + line("end", 4)
}

/// The lines of T, of S and of the runs, over all T and S: from the last track down, the longest
/// that the lines from a track on can be, if the track before it is global, a program's, or neither.
fn tracks() -> usize {
    let mut longest = 0;
    for t in 1..=256_usize {
        // From track t on there is no line.
        let mut from = vec![[0; 3]; t + 1];
        for first in (0..t).rev() {
            let mut best = from[first + 1][2];
            let mut of = [best; 3];
            for (who, shown) in [(0, "global"), (1, "32")] {
                // No run of one holder stands behind another; programs are many.
                let run = |last: usize| {
                    let fields = digits(first as u64) + digits(last as u64) + shown.len() + 2;
                    "held=".len() + fields + 1 + from[last + 1][who]
                };
                let most = (first..t).map(run).max().unwrap_or(0);
                best = best.max(most);
                for (before, of) in of.iter_mut().enumerate() {
                    if before != who || who == 1 {
                        *of = (*of).max(most);
                    }
                }
            }
            from[first] = of;
        }
        for s in 0..=t {
            let sizes = format!("tracks={}\nsystem={}\n", t, s);
            longest = longest.max(sizes.len() + from[s][2]);
        }
    }
    longest
}
