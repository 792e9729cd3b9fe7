//! An opening that ties a knot: one program is somebody's son, owns and locks resource numbers and
//! holds tracks, others wait for these, some of them marked, and then it ends or gives something
//! back. By chance alone a script rarely gets there with many that wait, of one kind or of all.

use crate::prng::Prng;
use crate::profile::Profile;

/// What the others wait for.
#[derive(Clone, Copy, PartialEq, Eq)]
enum Wait {
    Tracks,
    Lock,
    Number,
}

/// Two of three are to wait for one thing, so that one call wakes them all.
const WAITS: [&[Wait]; 6] = [
    &[Wait::Tracks],
    &[Wait::Lock],
    &[Wait::Lock],
    &[Wait::Number],
    &[Wait::Tracks, Wait::Lock, Wait::Number],
    &[Wait::Tracks, Wait::Lock, Wait::Number],
];

/// The programs of an opening.
const PROGRAMS: usize = 7;

/// Each number is a line or two.
const MOST_NUMBERS: u64 = 4;

/// The lines after FRESH; none where the tables have no resource number, or too many.
pub fn tangle(prng: &mut Prng, profile: &Profile) -> Vec<String> {
    if !(1..=MOST_NUMBERS).contains(&profile.r) {
        return Vec::new();
    }
    let mut names = profile.names.clone();
    names.sort();
    names.dedup();
    names.truncate(PROGRAMS);
    names.extend((names.len()..PROGRAMS).map(|k| format!("K{}", k)));
    let priority = profile.priorities[0];
    let father = names.remove(0);
    let son = names.remove(prng.below(names.len() as u64) as usize);
    let mut lines: Vec<String> =
        names.iter().map(|name| format!("LOAD,{},{}", name, priority)).collect();
    lines.push(format!("LOAD,{},{}", father, priority));
    lines.push(format!("LOAD,{},{}", son, priority));
    lines.push(format!("RU,{}", father));
    lines.push(format!("EXEC,9,{}", son));
    let own = prng.chance(2, 3);
    lines.extend(take_all(prng, profile, own));
    lines.push(format!("SS,{}", son));
    let waits = prng.pick(&WAITS);
    for name in &names {
        lines.push(format!("RU,{}", name));
        lines.push(wait(prng, profile, waits));
        // To its own number: it goes behind those that wait already.
        if prng.chance(1, 3) {
            let moved = prng.pick(&[&father, &father, name]).clone();
            lines.push(format!("PR,{},{}", moved, priority));
        }
    }
    names.push(father);
    lines.extend(mark(prng, &names, priority));
    lines.extend(end(prng, profile, &son, waits, own));
    lines.push(String::from("PAGE"));
    lines
}

/// The son takes every number, locks some, and takes the tracks, as its own or as global ones.
fn take_all(prng: &mut Prng, profile: &Profile, own: bool) -> Vec<String> {
    let mut lines = Vec::new();
    for r in 1..=profile.r {
        lines.push(format!("RN,ALLOC,{},0", prng.pick(&["L", "L", "G"])));
        if r == 1 || prng.chance(1, 2) {
            lines.push(format!("RN,LOCK,{},0", r));
        }
    }
    if profile.s < profile.t {
        let exec = if own { 4 } else { 15 };
        lines.push(format!("EXEC,{},{},0", exec, profile.t - profile.s));
    }
    lines
}

fn wait(prng: &mut Prng, profile: &Profile, waits: &[Wait]) -> String {
    match prng.pick(waits) {
        Wait::Tracks => format!("EXEC,{},{},0", prng.pick(&[4, 15]), prng.between(1, profile.t)),
        Wait::Number => format!("RN,ALLOC,{},0", prng.pick(&["L", "G"])),
        // Mostly the one that is locked.
        Wait::Lock => format!("RN,LOCK,{},0", prng.pick(&[1, 1, 1, profile.r.min(2)])),
    }
}

/// None of those who wait is marked, one, each second, or all but one; and what leaves a mark as it
/// is, now and then.
fn mark(prng: &mut Prng, names: &[String], priority: u64) -> Vec<String> {
    let kind = prng.below(5);
    let one = prng.pick(names);
    let mut lines = Vec::new();
    for name in names {
        let marked = match kind {
            0 => false,
            1 => *name == one,
            2 => *name != one,
            _ => prng.chance(1, 2),
        };
        if marked {
            lines.push(format!("SS,{}", name));
        }
        if marked && prng.chance(1, 4) {
            let kept = prng.pick(&[
                format!("SS,{}", name),
                format!("GO,{}", name),
                format!("PR,{},{}", name, priority),
            ]);
            lines.push(kept);
        }
    }
    lines
}

/// A call by which those wake who wait, or some of them.
fn end(prng: &mut Prng, profile: &Profile, son: &str, waits: &[Wait], own: bool) -> Vec<String> {
    let of = format!("OF,{},{}", son, prng.pick(&[1, 8]));
    let call = match prng.pick(waits) {
        Wait::Tracks if own => match prng.below(4) {
            0 => return vec![of],
            1 => format!("EXEC,5,1,{}", profile.s),
            _ => String::from("EXEC,5,ALL"),
        },
        Wait::Tracks => format!("EXEC,16,1,{}", profile.s),
        Wait::Lock => match prng.below(6) {
            0 | 1 => return vec![of],
            2 => String::from("EXEC,6"),
            3 => String::from("RN,FREE,1"),
            _ => String::from("RN,CLEAR,1"),
        },
        Wait::Number => match prng.below(4) {
            0 | 1 => return vec![of],
            2 => String::from("EXEC,6"),
            _ => String::from("RN,FREE,1"),
        },
    };
    vec![format!("GO,{}", son), call]
}
