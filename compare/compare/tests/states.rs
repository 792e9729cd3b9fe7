//! After every line of generated scripts: the tables are sound, they come back from their raw form,
//! the raw form goes on as the engine does, and no record changed that the line does not concern.

use comparer::damage::damage;
use comparer::make;
use comparer::prng::Prng;
use comparer::script::generate;
use comparer::CI_LINES;
use engine::raw::{Raw, RawRecord, RawWhy};
use engine::sheet::lines;
use engine::{parse, Engine, Request};
use faults::{together, Fault};

/// A part of the seeds: every line here costs several turns through the raw form.
const SEEDS: std::ops::Range<u64> = 1..101;

#[test]
fn sound_after_every_line() {
    for seed in SEEDS {
        let script = generate(seed, CI_LINES);
        let mut engine = Engine::smallest();
        let mut raw = Raw::of(&engine);
        for line in lines(&script) {
            let mut buffers = ([0; 8_704], [0; 8_704]);
            let answer = engine.line(line, &mut buffers.0);
            let next = Raw::of(&engine);
            assert!(next.sound(), "seed {}, {:?}", seed, String::from_utf8_lossy(line));
            // From the raw form, where entries are numbered anew, the same follows.
            let (from_raw, same_answer) = raw.line(line, &mut buffers.1);
            assert_eq!((&from_raw, same_answer), (&next, answer), "seed {}", seed);
            assert!(buffers.0 == buffers.1);
            let back = next.engine().expect("sound tables");
            assert_eq!(Raw::of(&back), next);
            frame(&raw, line, &next, answer.number);
            raw = next;
        }
    }
}

/// Demand 3: no call but FRESH alters the record of a program that is not its caller, not named in
/// it, not due at that tick (of many, at one of them) and not woken by it. A refused call alters nothing at all.
fn frame(before: &Raw, line: &[u8], after: &Raw, answer: u64) {
    if answer > 1 {
        assert_eq!(before, after);
        return;
    }
    let request = parse(line).expect("an accepted line");
    if matches!(request, Request::Fresh(..)) {
        return;
    }
    for place in 0..32 {
        let (old, new) = (&before.records[place], &after.records[place]);
        let caller = usize::from(before.links[1]) == place + 1 && running(request);
        let named = name_of(request).map_or(false, |name| old.name == name || new.name == name);
        let ticks = matches!(request, Request::Tick | Request::Ticks(_));
        let due = ticks && before.clock < old.due && old.due <= after.clock;
        let woken = (old.state == 3 || old.state == 5) && *new == as_woken(old);
        assert!(
            old == new || caller || named || due || woken,
            "{:?}: program {}",
            request,
            place + 1
        );
    }
}

/// The record as waking leaves it: scheduled, or suspended where the mark stood, which is gone.
fn as_woken(old: &RawRecord) -> RawRecord {
    let state = if old.suspend { 6 } else { 1 };
    RawRecord { state, why: RawWhy::Nothing, suspend: false, ..*old }
}

/// Whether it is a call of the running program.
fn running(request: Request) -> bool {
    use Request::*;
    !matches!(request, Load(..) | Ru(_) | Ss(_) | Go(_) | Pr(..) | Of(..) | Tick | Ticks(_) | Page)
}

fn name_of(request: Request) -> Option<[u8; 5]> {
    use Request::*;
    match request {
        Load(name, _) | Pr(name, _) | Of(name, _) | Exec12(name, ..) => Some(name),
        Ru(name) | Ss(name) | Go(name) | Exec9(name) | Exec10(name) => Some(name),
        _ => None,
    }
}

/// Damaged tables: the test ends on all of them, refuses most, and what it lets through is whole.
#[test]
fn damaged_tables() {
    let mut prng = Prng::new(7);
    let mut still_sound = 0;
    for seed in SEEDS {
        let script = generate(seed, CI_LINES);
        let mut engine = Engine::smallest();
        for line in lines(&script) {
            engine.line(line, &mut [0; 8_704]);
            let mut raw = Raw::of(&engine);
            for _ in 0..prng.between(1, 3) {
                damage(&mut prng, &mut raw);
            }
            let (after, answer) = raw.line(b"EXEC,6", &mut []);
            assert!(if raw.sound() { after.sound() } else { after == raw && answer.number == 14 });
            if let Some(engine) = raw.engine() {
                assert_eq!(Raw::of(&engine), raw);
                still_sound += 1;
            }
        }
    }
    assert!(still_sound > 100);
}

/// Sound tables of every kind with a field or two changed, many of them with marks.
fn damaged(count: usize) -> Vec<Raw> {
    let mut prng = Prng::new(11);
    let mut all = Vec::new();
    while all.len() < count {
        let reached = make::reached(&mut prng, 4);
        for mut raw in reached.into_iter().chain([make::unreached(&mut prng)]) {
            for _ in 0..prng.between(1, 2) {
                damage(&mut prng, &mut raw);
            }
            all.push(raw);
        }
    }
    all
}

/// The same tables as those of the engines that are built together.
fn carried(raw: &Raw) -> together::Raw {
    use together::raw::{RawNumber, RawRecord, RawWhy};
    let record = |old: engine::raw::RawRecord| RawRecord {
        used: old.used,
        name: old.name,
        priority: old.priority,
        state: old.state,
        why: match old.why {
            engine::raw::RawWhy::Nothing => RawWhy::Nothing,
            engine::raw::RawWhy::Tracks(n) => RawWhy::Tracks(n),
            engine::raw::RawWhy::Son(k) => RawWhy::Son(k),
            engine::raw::RawWhy::Lock(r) => RawWhy::Lock(r),
            engine::raw::RawWhy::Number => RawWhy::Number,
        },
        due: old.due,
        interval: old.interval,
        suspend: old.suspend,
    };
    together::Raw {
        records: raw.records.map(record),
        clock: raw.clock,
        year: raw.year,
        t: raw.t,
        s: raw.s,
        r: raw.r,
        tracks: raw.tracks,
        numbers: raw.numbers.map(|old| RawNumber { owner: old.owner, lock: old.lock }),
        links: raw.links,
    }
}

/// Wrong tests of soundness show on damaged tables. Among these is the mark in each state, and in
/// records that are not used.
#[test]
fn wrong_soundness_is_found() {
    let all = damaged(12_000);
    for state in [0, 1, 3, 5, 6] {
        let marked = |raw: &&Raw| {
            raw.records.iter().any(|record| record.used && record.suspend && record.state == state)
        };
        assert!(all.iter().filter(marked).count() >= 20, "marks in state {}", state);
    }
    let unused = |raw: &&Raw| raw.records.iter().any(|record| !record.used && record.suspend);
    assert!(all.iter().filter(unused).count() >= 20, "marks in records that are not used");
    for year in [0, 1969, 1970, 2099, 2100, 65_535] {
        let met = all.iter().filter(|raw| raw.year == year).count();
        assert!(met >= 5, "the year {}: {}", year, met);
    }
    let right: Vec<bool> = all.iter().map(Raw::sound).collect();
    let sounds = || all.iter().map(|raw| carried(raw).sound());
    assert!(sounds().eq(right.iter().copied()), "what all of them have in common is right");
    for name in [
        "cycle-sound",
        "crossed-sound",
        "chain-any-priority",
        "mark-sound-unused",
        "mark-sound-in-state-0",
        "mark-sound-in-state-1",
        "mark-sound-in-state-6",
        "mark-unsound-in-state-3",
        "mark-unsound-in-state-5",
        "year-sound-any",
        "year-sound-1969",
        "year-sound-2100",
        "year-unsound-1970",
        "year-unsound-2099",
    ] {
        let fault = Fault::by_name(name).expect("a fault");
        assert!(!fault.run(|| sounds().eq(right.iter().copied())), "missed: {}", name);
    }
}
