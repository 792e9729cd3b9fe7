//! The numbers of lines that mean something: claims that nearly fit, tracks that are held, resource
//! numbers that are locked, timers due together.

use crate::prng::Prng;
use crate::years::DAY;
use engine::tables::CEILING;
use engine::ticks::MOST_TICKS;
use engine::{Engine, Holder, Timer};

/// Runs of one holder: first track and length, upward.
fn runs(engine: &Engine, holder: Holder) -> Vec<(u64, u64)> {
    let mut runs: Vec<(u64, u64)> = Vec::new();
    for (place, found) in engine.tracks.iter().enumerate() {
        let track = place as u64;
        if *found != holder {
            continue;
        }
        match runs.last_mut() {
            Some((first, length)) if *first + *length == track => *length += 1,
            _ => runs.push((track, 1)),
        }
    }
    runs
}

/// How many tracks to claim: often the longest gap, one more, or all that is free.
pub fn count(prng: &mut Prng, engine: &Engine, gaps_wanted: bool) -> u64 {
    if gaps_wanted && prng.chance(2, 3) {
        return prng.between(1, 2);
    }
    let gaps = runs(engine, Holder::Free);
    let longest = gaps.iter().map(|(_, length)| *length).max().unwrap_or(0);
    let total: u64 = gaps.iter().map(|(_, length)| *length).sum();
    let some_gap = if gaps.is_empty() { 1 } else { prng.pick(&gaps).1 };
    let n = match prng.below(10) {
        0 | 1 => 1,
        2 => 2,
        3 => some_gap,
        4 => longest,
        5 | 6 => longest + 1,
        7 => total,
        8 => engine.t(),
        _ => prng.between(1, engine.t()),
    };
    n.max(1)
}

/// 0 to wait, mostly; 1 to be told.
pub fn w(prng: &mut Prng) -> u64 {
    u64::from(prng.chance(1, 4))
}

/// n and start: a part of a run of this holder, now and then one track too many.
pub fn part(prng: &mut Prng, engine: &Engine, holder: Holder, gaps_wanted: bool) -> (u64, u64) {
    let held = runs(engine, holder);
    if held.is_empty() || prng.chance(1, 12) {
        return (prng.between(1, 2), prng.below(engine.t() + 1));
    }
    let (first, length) = prng.pick(&held);
    if gaps_wanted && prng.chance(3, 4) {
        return (1, first + prng.below(length));
    }
    let start = first + if prng.chance(1, 2) { 0 } else { prng.below(length) };
    let rest = first + length - start;
    let n = if prng.chance(1, 2) { rest } else { prng.between(1, rest) };
    (n + u64::from(prng.chance(1, 10)), start)
}

/// What is wanted of a resource number.
#[derive(Clone, Copy, PartialEq, Eq)]
pub enum Wanted {
    Lock,
    Clear,
    Free,
}

/// A resource number: mostly one for which the call does something.
pub fn resource(prng: &mut Prng, engine: &Engine, wanted: Wanted) -> u64 {
    let caller = engine.caller().ok();
    let mine = |owner| owner == Holder::Global || caller.map(Holder::Program) == Some(owner);
    let mut fitting = Vec::new();
    for (place, number) in engine.numbers.iter().enumerate() {
        let fits = match wanted {
            Wanted::Lock => number.owner != Holder::Free,
            Wanted::Clear => number.lock.is_some() && number.lock == caller,
            Wanted::Free => number.owner != Holder::Free && mine(number.owner),
        };
        if fits {
            fitting.push(place as u64 + 1);
        }
    }
    if fitting.is_empty() || prng.chance(1, 10) {
        return prng.between(1, engine.r().max(1));
    }
    prng.pick(&fitting)
}

/// Resolution, multiple and offset: near, so that few ticks reach it, and often at a tick at which
/// another timer is due; now and then of any unit, at the bounds and one above them.
pub fn timer(prng: &mut Prng, engine: &Engine) -> (u64, u64, u64) {
    if prng.chance(1, 8) {
        let multiple = prng.pick(&[0, 1, 7, 4094, 4095, 4096]);
        return (prng.between(1, 4), multiple, prng.pick(&[1, 7, 60, 4094, 4095, 4096]));
    }
    // Not by single ticks, but by many at once.
    if prng.chance(1, 8) {
        let multiple = prng.pick(&[0, 1, 2, 7, 60, 300]);
        return (prng.pick(&[1, 1, 2, 2, 3]), multiple, prng.between(1, 400));
    }
    let set = timers(engine);
    let offset = if !set.is_empty() && prng.chance(1, 2) {
        // A due is above the clock.
        prng.pick(&set).due - engine.clock
    } else {
        prng.between(1, 4)
    };
    (1, prng.pick(&[0, 0, 1, 2, 3]), offset.min(4095))
}

fn timers(engine: &Engine) -> Vec<Timer> {
    engine.programs.values().filter_map(|program| program.timer).collect()
}

/// How many ticks at once: mostly few, or up to a due or beside it; now and then up to the end of the
/// day, many, none, or too many. Near the ceiling often as many as there is room for, or beside that.
pub fn ticks(prng: &mut Prng, engine: &Engine) -> u64 {
    let set = timers(engine);
    let room = CEILING - engine.clock;
    if room <= MOST_TICKS && prng.chance(1, 3) {
        return beside(prng, room);
    }
    match prng.below(17) {
        0..=7 if !set.is_empty() => up_to_due(prng, engine, &set),
        8 => prng.between(1, 40),
        9 => prng.between(1, 1_000),
        10 => {
            let most = prng.pick(&[10_000, 1_000_000, MOST_TICKS]);
            prng.between(1, most)
        }
        11 => prng.pick(&[1, 2, 256, 257, MOST_TICKS - 1, MOST_TICKS, MOST_TICKS]),
        12 => prng.pick(&[
            0,
            0,
            MOST_TICKS + 1,
            MOST_TICKS + 1,
            4_294_967_296,
            4_294_967_297,
            9_999_999_999,
        ]),
        13 => {
            let left = DAY - engine.clock % DAY;
            beside(prng, left)
        }
        _ => prng.between(1, 5),
    }
}

/// A number, or one beside it; seldom 0.
fn beside(prng: &mut Prng, number: u64) -> u64 {
    let near = prng.pick(&[number.saturating_sub(1), number, number, number + 1]);
    if near == 0 && prng.chance(7, 8) {
        1
    } else {
        near
    }
}

/// So many that a timer is due at the last of them, or nearly, for the first time or again, or for so
/// long as its interval is. Of those that are too many for one line most become fewer.
fn up_to_due(prng: &mut Prng, engine: &Engine, set: &[Timer]) -> u64 {
    let Timer { due, interval } = prng.pick(set);
    let last = set.iter().map(|timer| timer.due).max().unwrap_or(due);
    let number = match prng.below(6) {
        0 | 1 => due - engine.clock,
        2 => last - engine.clock,
        3 => interval,
        4 => 2 * interval,
        _ => due - engine.clock + prng.between(1, 3) * interval,
    };
    if number > MOST_TICKS && prng.chance(3, 4) {
        return prng.pick(&[number % MOST_TICKS, number % 1_000]) + 1;
    }
    beside(prng, number)
}
