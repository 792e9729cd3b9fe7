//! Sound tables. Some are met by running scripts; others are put together field by field, as far
//! as soundness lets them go: no run from FRESH makes a dormant program that owns a number, two
//! programs that wait for each other, or an interval that is no multiple of a unit, and no script
//! here brings the clock near its ceiling.

use crate::prng::Prng;
use crate::script::generate;
use crate::years::{self, DAY};
use engine::raw::{
    Raw, RawNumber, RawRecord, RawWhy, BLANK_NUMBER, GLOBAL, LINKS, SLOTS, SYSTEM, UNUSED,
};
use engine::sheet::{lines, print_line};
use engine::tables::{
    CEILING, CHAINS, DISC, FURTHEST, GENERAL_WAIT, LATEST_YEAR, LOWEST_PRIORITY, RECORDS,
    USUAL_YEAR,
};
use engine::ticks::MOST_TICKS;
use engine::Engine;

/// The tables at some places of one script.
pub fn reached(prng: &mut Prng, most: usize) -> Vec<Raw> {
    let length = prng.between(20, 300) as usize;
    let script = generate(prng.number(), length);
    let mut engine = Engine::smallest();
    let mut met = Vec::new();
    for line in lines(&script) {
        print_line(&mut engine, line);
        if met.len() < most && prng.chance(2 * most as u64, length as u64) {
            met.push(Raw::of(&engine));
        }
    }
    met
}

/// Tables of which only soundness is asked.
pub fn unreached(prng: &mut Prng) -> Raw {
    let (t, s, r) = sizes(prng);
    let year = if prng.chance(1, 3) { USUAL_YEAR } else { years::allowed(prng) };
    let mut raw = Raw {
        records: [UNUSED; RECORDS],
        clock: clock(prng, year),
        year,
        t,
        s,
        r,
        tracks: [0; 256],
        numbers: [BLANK_NUMBER; 16],
        links: [0; SLOTS],
    };
    put_programs(prng, &mut raw);
    put_whys(prng, &mut raw);
    let programs = used(&raw);
    put_tracks(prng, &mut raw, &programs);
    put_numbers(prng, &mut raw, &programs);
    put_links(prng, &mut raw);
    assert!(raw.sound(), "tables put together here are sound: {:?}", raw);
    raw
}

fn sizes(prng: &mut Prng) -> (u64, u64, u64) {
    let any = prng.between(1, 256);
    let t = prng.pick(&[1, 2, 3, 8, 16, 40, 255, 256, 256, any]);
    let part = prng.below(t + 1);
    let s = prng.pick(&[0, 0, 0, 1, t, t - 1, part]);
    let any = prng.below(17);
    (t, s, prng.pick(&[0, 1, 2, 3, 15, 16, 16, any]))
}

/// Often the last tick of a day or of a year, or close below the ceiling.
fn clock(prng: &mut Prng, start_year: u64) -> u64 {
    let day = prng.between(1, CEILING / DAY) * DAY;
    let (_, year) = prng.pick(&years::turns(start_year));
    // Day 366 begins there, if there is one.
    let last_day = (year + 364 * DAY).min(CEILING - DAY - 1);
    let any = prng.below(CEILING + 1);
    let near = prng.below(5);
    match prng.below(9) {
        0 => 0,
        1 => near,
        2 => day + 1 - near.min(2),
        3 => year + 1 - near.min(2),
        8 => last_day + DAY * prng.below(2) + 1 - near.min(2),
        4 => CEILING,
        5 => CEILING - near,
        6 => {
            let most = prng.pick(&[FURTHEST, MOST_TICKS, 5_000]);
            CEILING - prng.below(most)
        }
        _ => any,
    }
}

fn used(raw: &Raw) -> Vec<u8> {
    (1..=RECORDS as u8).filter(|p| raw.records[usize::from(*p) - 1].used).collect()
}

fn put_programs(prng: &mut Prng, raw: &mut Raw) {
    let of_hundred = prng.pick(&[0, 5, 15, 30, 60, 90, 100]);
    let few = prng.chance(1, 2);
    let ties = prng.pick(&[0, 1, 10, 32_767]);
    // Of those who wait, so many of four are marked.
    let marks = prng.pick(&[0, 1, 1, 2, 3, 4]);
    let mut names = Vec::new();
    for place in 0..RECORDS {
        if !prng.chance(of_hundred, 100) {
            continue;
        }
        let any = prng.below(32_768);
        let priority = if few { ties } else { prng.pick(&[0, 1, 10, 10, 11, 32_767, any]) };
        let (due, interval) = timer(prng, raw.clock);
        let state = prng.pick(&[0, 0, 1, 1, 3, 3, 5, 6]);
        let name = name(prng, &names);
        names.push(name);
        let why = RawWhy::Nothing;
        let marked = state == u64::from(DISC) || state == u64::from(GENERAL_WAIT);
        let suspend = marked && prng.chance(marks, 4);
        raw.records[place] =
            RawRecord { used: true, name, priority, state, why, due, interval, suspend };
    }
}

/// A legal name that is none of these.
fn name(prng: &mut Prng, others: &[[u8; 5]]) -> [u8; 5] {
    loop {
        let mut name = *b"     ";
        let size = prng.between(1, 5) as usize;
        for (place, byte) in name.iter_mut().take(size).enumerate() {
            let wide = if place == 0 { 26 } else { 36 };
            // Mostly few letters, so that names are each other's beginnings.
            let letter = if prng.chance(2, 3) { prng.below(2) } else { prng.below(wide) } as u8;
            *byte = if letter < 26 { b'A' + letter } else { b'0' + (letter - 26) };
        }
        if !others.contains(&name) {
            return name;
        }
    }
}

/// Due and interval; both 0 without a timer.
fn timer(prng: &mut Prng, clock: u64) -> (u64, u64) {
    if prng.chance(1, 3) {
        return (0, 0);
    }
    let any = prng.between(1, FURTHEST);
    let ahead = prng.pick(&[1, 1, 1, 2, 3, FURTHEST - 1, FURTHEST, any]);
    let any = prng.below(FURTHEST + 1);
    (clock + ahead, prng.pick(&[0, 0, 1, 2, 100, FURTHEST - 1, FURTHEST, any]))
}

/// Most timers of these tables come due soon, some of them at one moment.
pub fn due_soon(prng: &mut Prng, raw: &mut Raw) {
    let span = prng.pick(&[3, 10, 300, 5_000]);
    for record in raw.records.iter_mut().filter(|record| record.used) {
        if prng.chance(3, 4) {
            record.due = raw.clock + prng.between(1, span);
            record.interval = prng.pick(&[0, 0, 1, 2, 3, 7, 100, span, span + 1]);
        }
    }
}

/// In states 5 and 3 a why that fits. A son may be any program that is not dormant, a father of its
/// father among them, but nobody's son already.
fn put_whys(prng: &mut Prng, raw: &mut Raw) {
    let runs = |raw: &Raw, k: usize| raw.records[k - 1].used && raw.records[k - 1].state != 0;
    let mut sons: Vec<usize> = (1..=RECORDS).filter(|k| runs(raw, *k)).collect();
    for p in 1..=RECORDS {
        let state = raw.records[p - 1].state;
        let why = if state == u64::from(DISC) {
            let any = prng.between(1, raw.t);
            RawWhy::Tracks(prng.pick(&[1, raw.t, any]))
        } else if state == u64::from(GENERAL_WAIT) {
            let fitting: Vec<usize> = sons.iter().copied().filter(|k| *k != p).collect();
            match prng.below(3) {
                0 if raw.r > 0 => {
                    let any = prng.between(1, raw.r);
                    RawWhy::Lock(prng.pick(&[1, raw.r, any]))
                }
                1 if !fitting.is_empty() => {
                    let father = |k: &&usize| raw.records[**k - 1].why == RawWhy::Son(p as u64);
                    let back = fitting.iter().find(father).copied();
                    let any = prng.pick(&fitting);
                    let son = back.filter(|_| prng.chance(1, 2)).unwrap_or(any);
                    sons.retain(|k| *k != son);
                    RawWhy::Son(son as u64)
                }
                _ => RawWhy::Number,
            }
        } else {
            RawWhy::Nothing
        };
        raw.records[p - 1].why = why;
    }
}

/// Free, global, or any program's, dormant ones too; in runs or singly.
fn put_tracks(prng: &mut Prng, raw: &mut Raw, programs: &[u8]) {
    let changes = prng.pick(&[1, 2, 8, 40]);
    let mut holder = 0;
    for track in 0..raw.t as usize {
        if prng.chance(1, changes) {
            holder = match prng.below(3) {
                0 if !programs.is_empty() => prng.pick(programs),
                1 => GLOBAL,
                _ => 0,
            };
        }
        raw.tracks[track] = if (track as u64) < raw.s { SYSTEM } else { holder };
    }
}

fn put_numbers(prng: &mut Prng, raw: &mut Raw, programs: &[u8]) {
    for place in 0..raw.r as usize {
        let owner = match prng.below(4) {
            0 | 1 if !programs.is_empty() => prng.pick(programs),
            2 => GLOBAL,
            _ => 0,
        };
        let locked = owner != 0 && !programs.is_empty() && prng.chance(1, 2);
        let lock = if locked { prng.pick(programs) } else { 0 };
        raw.numbers[place] = RawNumber { owner, lock };
    }
}

/// Each chain by priority, equals in any order.
fn put_links(prng: &mut Prng, raw: &mut Raw) {
    for state in CHAINS {
        let mut chain: Vec<(u64, u64, u8)> = Vec::new();
        for p in used(raw) {
            let record = &raw.records[usize::from(p) - 1];
            if record.state == u64::from(state) {
                chain.push((record.priority, prng.number(), p));
            }
        }
        chain.sort_unstable();
        let mut slot = usize::from(state);
        for (_, _, p) in chain {
            raw.links[slot] = p;
            slot = LINKS + usize::from(p);
        }
    }
}

/// The tables with the longest page: every number has as many digits as it can, every record waits
/// for tracks and is marked, no two neighbours of 256 tracks have one holder, and the year is shown.
pub fn largest() -> Raw {
    let (engine, _) = Engine::fresh(256, 0, 16, LATEST_YEAR);
    let mut raw = Raw::of(&engine);
    raw.clock = CEILING;
    let mut slot = usize::from(DISC);
    for p in 1..=RECORDS {
        let mut name = *b"WAITA";
        name[4] = if p <= 26 { b'A' + p as u8 - 1 } else { b'0' + p as u8 - 27 };
        raw.records[p - 1] = RawRecord {
            used: true,
            name,
            priority: LOWEST_PRIORITY,
            state: u64::from(DISC),
            why: RawWhy::Tracks(256),
            due: CEILING + FURTHEST,
            interval: FURTHEST,
            suspend: true,
        };
        raw.links[slot] = p as u8;
        slot = LINKS + p;
    }
    for (track, holder) in raw.tracks.iter_mut().enumerate() {
        *holder = if track % 2 == 0 { GLOBAL } else { RECORDS as u8 };
    }
    for number in &mut raw.numbers {
        *number = RawNumber { owner: GLOBAL, lock: RECORDS as u8 };
    }
    raw
}
