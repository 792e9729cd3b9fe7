//! A whole script from a seed, and lines that go on from tables. The generator keeps an engine
//! beside it, so that most lines mean something in the state they meet.

use crate::prng::Prng;
use crate::profile::{Profile, Topic};
use crate::rota::rota;
use crate::tangle::tangle;
use crate::{spoil, wish, years};
use engine::sheet::print_line;
use engine::ticks::MOST_TICKS;
use engine::{parse, Engine, Request};

/// A script of so many lines. The first is an accepted FRESH; the last may lack its byte 10.
pub fn generate(seed: u64, lines: usize) -> Vec<u8> {
    generate_within(seed, lines, MOST_TICKS)
}

/// The same where no line makes more ticks than so many, at least one: for somebody who makes them
/// one by one.
pub fn generate_within(seed: u64, lines: usize, most_ticks: u64) -> Vec<u8> {
    let mut prng = Prng::new(seed);
    let profile = Profile::new(&mut prng);
    let mut engine = Engine::smallest();
    let mut script = Vec::new();
    let opening = opening(&mut prng, &profile, most_ticks);
    for place in 0..lines {
        let line = if place < opening.len() {
            opening[place].clone().into_bytes()
        } else if place + 1 == lines && prng.chance(3, 4) {
            // What went wrong in silence shows at the end.
            b"PAGE".to_vec()
        } else {
            next_line(&mut prng, &profile, &engine)
        };
        let line = fewer_ticks(line, most_ticks);
        print_line(&mut engine, &line);
        script.extend_from_slice(&line);
        script.push(b'\n');
    }
    // An empty last line would vanish with its byte 10.
    if lines > 1 && prng.chance(1, 3) && !script.ends_with(b"\n\n") {
        script.pop();
    }
    script
}

/// So many lines that go on from these tables, which obey them.
pub fn going_on(prng: &mut Prng, engine: &mut Engine, count: usize) -> Vec<Vec<u8>> {
    let profile = Profile::new(prng);
    let mut lines = Vec::new();
    for _ in 0..count {
        let line = next_line(prng, &profile, engine);
        print_line(engine, &line);
        lines.push(line);
    }
    lines
}

/// A line that makes too many ticks makes some of them; one that is refused stays.
fn fewer_ticks(line: Vec<u8>, most: u64) -> Vec<u8> {
    match parse(&line) {
        Some(Request::Ticks(n)) if n > most && n <= MOST_TICKS => {
            format!("TICK,{}", n % most + 1).into_bytes()
        }
        _ => line,
    }
}

fn opening(prng: &mut Prng, profile: &Profile, most_ticks: u64) -> Vec<String> {
    // Only where a year is some lines.
    if prng.chance(1, 12) && most_ticks == MOST_TICKS {
        return years::ends_of_years(prng, profile);
    }
    let year = profile.year.map_or(String::new(), |year| format!(",{}", year));
    let mut opening = vec![format!("FRESH,{},{},{}{}", profile.t, profile.s, profile.r, year)];
    if prng.chance(2, 5) {
        opening.extend(tangle(prng, profile));
    } else if prng.chance(1, 4) {
        opening.extend(rota(prng, profile));
    }
    opening
}

fn next_line(prng: &mut Prng, profile: &Profile, engine: &Engine) -> Vec<u8> {
    let topic = useful_topic(prng, profile, engine);
    match topic {
        Topic::Edge | Topic::Spoilt => {
            let good = good_line(prng, profile, engine);
            if topic == Topic::Edge {
                spoil::edge(prng, engine, &good)
            } else {
                spoil::spoil(prng, &good)
            }
        }
        // A script should mostly keep what it has built up.
        Topic::Fresh if prng.chance(1, 2) => b"PAGE".to_vec(),
        Topic::Fresh if prng.chance(3, 5) => years::refused(prng).into_bytes(),
        _ => wish::line(prng, profile, engine, topic).into_bytes(),
    }
}

/// Mostly a topic for which the present state has something to act on.
fn useful_topic(prng: &mut Prng, profile: &Profile, engine: &Engine) -> Topic {
    for _ in 0..5 {
        let topic = profile.topic(prng);
        if wish::useful(engine, topic) {
            return topic;
        }
    }
    profile.topic(prng)
}

/// A good line to be made a bad one.
fn good_line(prng: &mut Prng, profile: &Profile, engine: &Engine) -> String {
    let topic = useful_topic(prng, profile, engine);
    match topic {
        Topic::Edge | Topic::Spoilt => years::fresh(prng),
        _ => wish::line(prng, profile, engine, topic),
    }
}
