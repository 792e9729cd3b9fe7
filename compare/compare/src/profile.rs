//! What one script is about. A script with few names and equal priorities goes deep; the profile
//! says which of the awkward corners it keeps to.

use crate::prng::Prng;
use crate::years;

/// The kinds of lines, in the order of the weights.
#[derive(Clone, Copy, Debug, PartialEq, Eq)]
pub enum Topic {
    Load,
    Run,
    Suspend,
    Go,
    Priority,
    Off,
    Tick,
    Ticks,
    Claim,
    GiveBack,
    GiveAll,
    End,
    Pause,
    Son,
    Start,
    Time,
    Timer,
    Alloc,
    Lock,
    Clear,
    Free,
    Page,
    Edge,
    Spoilt,
    Fresh,
}

use Topic::*;

/// Every topic with its usual weight.
const TOPICS: [(Topic, u64); 25] = [
    (Load, 8),
    (Run, 12),
    (Suspend, 7),
    (Go, 6),
    (Priority, 8),
    (Off, 5),
    (Tick, 6),
    (Ticks, 6),
    (Claim, 10),
    (GiveBack, 6),
    (GiveAll, 2),
    (End, 5),
    (Pause, 3),
    (Son, 8),
    (Start, 4),
    (Time, 1),
    (Timer, 5),
    (Alloc, 8),
    (Lock, 10),
    (Clear, 5),
    (Free, 5),
    (Page, 8),
    (Edge, 5),
    (Spoilt, 7),
    (Fresh, 1),
];

/// What a script can dwell on: some topics get four times their weight, others a quarter of it.
struct Theme {
    loud: &'static [Topic],
    quiet: &'static [Topic],
    /// Claims of one or two tracks, given back singly: the free tracks lie in many gaps.
    gaps: bool,
}

const fn theme(loud: &'static [Topic], quiet: &'static [Topic]) -> Theme {
    Theme { loud, quiet, gaps: false }
}

const THEMES: [Theme; 11] = [
    theme(&[], &[]),
    theme(&[Claim, GiveBack, GiveAll, Off], &[]),
    Theme { loud: &[Claim, GiveBack], quiet: &[GiveAll, Off, Alloc, Lock, Son, Fresh], gaps: true },
    theme(&[Alloc, Lock, Clear, Free, Priority], &[Claim, Timer]),
    theme(&[Son, End, Off, Load, Priority], &[Claim, Timer, Lock]),
    theme(&[Timer, Tick, Ticks, End], &[Claim, Alloc, Lock]),
    theme(&[Timer, Tick, Ticks, Load], &[Run, Start, Off, Claim, Alloc, Lock, Spoilt, Fresh]),
    theme(&[Alloc, Lock, Son, Off, Priority], &[Claim, Timer, Free, Clear]),
    theme(&[Claim, Lock, Alloc, Off, Run], &[GiveBack]),
    theme(&[Edge, Spoilt], &[]),
    theme(&[Suspend, Son, Lock, Alloc, Claim, Run], &[Go, Pause, Start, Timer, Spoilt, Fresh]),
];

const WORDS: [&str; 30] = [
    "ALL", "GO", "RN", "L", "G", "A", "B", "C", "AB", "A1", "A11", "WHZAT", "Z9999", "PAGE",
    "TICK", "EXEC", "FRESH", "LOAD", "RU", "SS", "PR", "OF", "ALLOC", "LOCK", "CLEAR", "FREE",
    "AAAAA", "AAAAB", "END", "X",
];

const PRIORITIES: [&[u64]; 7] =
    [&[10], &[10], &[10, 10, 10, 11], &[1, 2], &[0, 1, 10], &[0, 32_767], &[5, 5, 6, 7, 300]];

pub struct Profile {
    pub t: u64,
    pub s: u64,
    pub r: u64,
    /// The start year, if FRESH is given one.
    pub year: Option<u64>,
    /// Whether the free tracks should lie in many gaps.
    pub gaps: bool,
    pub names: Vec<String>,
    pub priorities: Vec<u64>,
    topics: Vec<Topic>,
    weights: Vec<u64>,
}

impl Profile {
    pub fn new(prng: &mut Prng) -> Profile {
        let crowd = prng.chance(1, 8);
        let theme = &THEMES[prng.below(THEMES.len() as u64) as usize];
        let (t, s, r) = sizes(prng);
        let year = Some(years::allowed(prng)).filter(|_| prng.chance(1, 2));
        let weight = |(topic, usual): &(Topic, u64)| {
            let times = if theme.loud.contains(topic) { 16 } else { 4 };
            let times = if theme.quiet.contains(topic) { 1 } else { times };
            match topic {
                Load if crowd => 8 * times * usual,
                Off if crowd => times * usual / 4,
                _ => times * usual,
            }
        };
        Profile {
            t,
            s,
            r,
            year,
            gaps: theme.gaps,
            names: if crowd { crowd_names() } else { few_names(prng) },
            priorities: prng.pick(&PRIORITIES).to_vec(),
            topics: TOPICS.iter().map(|(topic, _)| *topic).collect(),
            weights: TOPICS.iter().map(weight).collect(),
        }
    }

    pub fn topic(&self, prng: &mut Prng) -> Topic {
        self.topics[prng.weighted(&self.weights)]
    }
}

/// T, S and R of an accepted FRESH: mostly small, now and then at a limit.
pub fn sizes(prng: &mut Prng) -> (u64, u64, u64) {
    let t = prng.pick(&[1, 2, 3, 4, 5, 6, 7, 8, 8, 9, 10, 12, 16, 40, 255, 256]);
    let s = match prng.below(10) {
        0 => t,
        1 => t - 1,
        2 => t / 2,
        3 | 4 => 1,
        _ => 0,
    };
    let r = prng.pick(&[0, 1, 1, 1, 2, 2, 2, 3, 3, 4, 16]);
    (t, s, r)
}

fn few_names(prng: &mut Prng) -> Vec<String> {
    let count = prng.between(4, 8);
    (0..count).map(|_| prng.pick(&WORDS).to_string()).collect()
}

/// More names than there are records.
fn crowd_names() -> Vec<String> {
    (1..=40).map(|k| format!("P{}", k)).collect()
}
