//! An opening for request (iii): programs that are dormant, mostly, with timers at several moments;
//! then many ticks at once, those who were started end, and again. By chance alone few lines of a
//! script start two programs at two moments.

use crate::prng::Prng;
use crate::profile::Profile;

/// The programs of an opening.
const PROGRAMS: usize = 7;

/// Resolutions and the ticks of their units; the last is seldom taken.
const UNITS: [(u64, u64); 5] = [(1, 1), (1, 1), (2, 100), (2, 100), (3, 6_000)];

/// The lines after FRESH.
pub fn rota(prng: &mut Prng, profile: &Profile) -> Vec<String> {
    let mut names = profile.names.clone();
    names.sort();
    names.dedup();
    names.truncate(PROGRAMS);
    names.extend((names.len()..PROGRAMS).map(|k| format!("K{}", k)));
    // Mostly equals: their order tells who came first.
    let equals = prng.chance(3, 4);
    let mut lines = Vec::new();
    for name in &names {
        let priority = if equals { profile.priorities[0] } else { prng.pick(&profile.priorities) };
        lines.push(format!("LOAD,{},{}", name, priority));
    }
    let runner = names.remove(prng.below(names.len() as u64) as usize);
    lines.push(format!("RU,{}", runner));
    let (resolution, unit) = prng.pick(&UNITS);
    let latest = prng.pick(&[3, 6, 12]);
    for name in &names {
        let (multiple, offset) = (prng.pick(&[0, 0, 1, 2, 3, 5]), prng.between(1, latest));
        lines.push(format!("EXEC,12,{},{},{},{}", name, resolution, multiple, offset));
        if prng.chance(1, 6) {
            lines.push(format!("RU,{}", name));
        }
    }
    if prng.chance(1, 2) {
        lines.push(String::from("EXEC,6"));
    }
    for _ in 0..prng.between(1, 4) {
        let about = prng.between(1, latest) * unit;
        let n = prng.pick(&[about - 1, about, about, about, about + 1]);
        if unit == 1 && prng.chance(1, 3) {
            lines.extend((0..n).map(|_| String::from("TICK")));
        } else {
            lines.push(format!("TICK,{}", n));
        }
        lines.push(String::from("PAGE"));
        // Dormant again, some of them.
        lines.extend((0..prng.between(1, 4)).map(|_| String::from("EXEC,6")));
    }
    lines
}
