//! A console line for given tables: requests of every kind, so that each is now accepted and now
//! refused, and lines that are none.

use crate::ffi::{ANSWER, PAGE};
use comparer::prng::Prng;
use comparer::profile::{Profile, Topic};
use comparer::{claims, spoil, wish, years};
use engine::tables::shown_name;
use engine::Engine;

const REQUESTS: [Topic; 24] = [
    Topic::Load,
    Topic::Run,
    Topic::Suspend,
    Topic::Go,
    Topic::Priority,
    Topic::Off,
    Topic::Tick,
    Topic::Ticks,
    Topic::Claim,
    Topic::GiveBack,
    Topic::GiveAll,
    Topic::End,
    Topic::Pause,
    Topic::Son,
    Topic::Start,
    Topic::Time,
    Topic::Time,
    Topic::Timer,
    Topic::Alloc,
    Topic::Lock,
    Topic::Clear,
    Topic::Free,
    Topic::Page,
    Topic::Fresh,
];

/// The engine has these tables, or those they were before they were harmed.
pub fn line(prng: &mut Prng, engine: &Engine) -> Vec<u8> {
    // Mostly names that are in use, and some that are not.
    let mut profile = Profile::new(prng);
    profile.names.truncate(4);
    profile.names.extend(names(engine));
    let good = good(prng, &profile, engine);
    match prng.below(24) {
        0 | 1 => spoil::edge(prng, engine, &good),
        2 => spoil::spoil(prng, &good),
        3 => strange(prng, &good),
        _ => good.into_bytes(),
    }
}

/// Ticks, mostly many at once.
pub fn ticks(prng: &mut Prng, engine: &Engine) -> Vec<u8> {
    let line = format!("TICK,{}", claims::ticks(prng, engine));
    match prng.below(24) {
        0 => spoil::spoil(prng, &line),
        1 => b"TICK".to_vec(),
        _ => line.into_bytes(),
    }
}

fn names(engine: &Engine) -> Vec<String> {
    engine.programs.values().map(|program| shown_name(program.name)).collect()
}

fn good(prng: &mut Prng, profile: &Profile, engine: &Engine) -> String {
    let mut topic = prng.pick(&REQUESTS);
    // Half of the lines find something to act on, if there is anything.
    if prng.chance(1, 2) {
        for _ in 0..5 {
            if wish::useful(engine, topic) {
                break;
            }
            topic = prng.pick(&REQUESTS);
        }
    }
    let names = names(engine);
    match topic {
        Topic::Load if !names.is_empty() && prng.chance(1, 4) => {
            format!("LOAD,{},{}", prng.pick(&names), prng.pick(&[0, 10, 32_767]))
        }
        // Of any program, in any state.
        Topic::Run if !names.is_empty() && prng.chance(1, 4) => {
            format!("{},{}", prng.pick(&["RU", "SS", "GO"]), prng.pick(&names))
        }
        Topic::Off if !names.is_empty() && prng.chance(1, 2) => {
            format!("OF,{},{}", prng.pick(&names), prng.pick(&[1, 8]))
        }
        Topic::Fresh if prng.chance(1, 2) => years::refused(prng),
        _ => wish::line(prng, profile, engine, topic),
    }
}

/// Lines that no text has: with byte 10 in them, or of any bytes at all.
fn strange(prng: &mut Prng, good: &str) -> Vec<u8> {
    let mut bytes = good.as_bytes().to_vec();
    match prng.below(4) {
        0 => bytes.push(b'\n'),
        1 => bytes.insert(prng.below(bytes.len() as u64) as usize, b'\n'),
        2 => bytes.extend_from_slice(b"\nTICK"),
        _ => {
            let size = prng.pick(&[1, 4, 72, 73, 300]);
            bytes = (0..size).map(|_| prng.below(256) as u8).collect();
        }
    }
    bytes
}

/// Lengths of a buffer lent to PAGE for a page of so many bytes: too short, exact, longer.
pub fn buffer(prng: &mut Prng, page: usize) -> usize {
    let shorter = prng.below(page as u64) as usize;
    prng.pick(&[0, shorter, page - 1, page, page, page + 1, page + 100, PAGE.max(page)])
}

/// Lengths of the bytes lent for an answer: mostly as many as it has, now and then too few or more.
pub fn answer(prng: &mut Prng) -> usize {
    match prng.below(16) {
        0 => prng.pick(&[0, 1, 8, ANSWER - 1]),
        1 => prng.pick(&[ANSWER + 1, ANSWER + 8, 100]),
        _ => ANSWER,
    }
}
