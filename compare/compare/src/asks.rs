//! What is asked of a desk on a pair of texts: lines to be found, and lists to be filled.

use crate::prng::Prng;
use crate::report::shown;
use crate::texts::Pair;
use engine::desk::key;
use engine::sheet::lines;

#[derive(Clone, Debug, PartialEq, Eq)]
pub enum Ask {
    Find {
        key: Vec<u8>,
        occurrence: u64,
    },
    List {
        /// What the list holds beforehand.
        lent: Vec<u64>,
    },
}

impl Ask {
    pub fn what(&self) -> String {
        match self {
            Ask::Find { key, occurrence } => {
                format!("find \"{}\", occurrence {}", shown(key), occurrence)
            }
            Ask::List { lent } => format!("list, {} places", lent.len()),
        }
    }
}

/// Some lines to be found and some lists, for a pair of which so many lines are listed.
pub fn asks(prng: &mut Prng, pair: &Pair, listed: usize) -> Vec<Ask> {
    let mut asks = finds(prng, pair, 4);
    asks.extend(lists(prng, listed));
    asks
}

/// So many lines to be found.
pub fn finds(prng: &mut Prng, pair: &Pair, count: usize) -> Vec<Ask> {
    let texts = [lines(&pair.original), lines(&pair.copy)];
    let find = |_| {
        let key = any_key(prng, &texts);
        let occurrence = occurrence(prng, &texts, &key);
        Ask::Find { key, occurrence }
    };
    (0..count).map(find).collect()
}

type Lines<'a> = Vec<&'a [u8]>;

/// Often the key of a line, or nearly, or what only looks like one.
fn any_key(prng: &mut Prng, texts: &[Lines; 2]) -> Vec<u8> {
    let text = &texts[prng.below(2) as usize];
    if text.is_empty() {
        return noise(prng);
    }
    let place = any_place(prng, text);
    let line = text[place];
    let own = key(line).unwrap_or(line);
    let front = prng.below(own.len() as u64) as usize;
    match prng.below(30) {
        0 => own[..front].to_vec(),
        1 => own[own.len() - front..].to_vec(),
        2 => [own, &[prng.pick(b"a =0\n\0d")]].concat(),
        3 => Vec::new(),
        4 => up_to_another(prng, line).to_vec(),
        5 if place > 0 => [text[place - 1], b"\n", own].concat(),
        6 => noise(prng),
        7 => own.to_ascii_uppercase(),
        // An empty key is refused before anything is looked at.
        8..=26 if own.is_empty() => noise(prng),
        _ => own.to_vec(),
    }
}

/// Mostly of a line that can be asked for, if there are some.
fn any_place(prng: &mut Prng, text: &Lines) -> usize {
    let mut place = 0;
    for _ in 0..3 {
        // There may be thousands of lines without a key behind some that have one.
        let near = prng.below(12).min(text.len() as u64 - 1) as usize;
        let any = prng.below(text.len() as u64) as usize;
        place = prng.pick(&[near, text.len() - 1 - near, any]);
        if key(text[place]).map_or(false, |key| !key.is_empty()) {
            break;
        }
    }
    place
}

/// The line up to any `=` but the first, or all of it.
fn up_to_another<'a>(prng: &mut Prng, line: &'a [u8]) -> &'a [u8] {
    let ends: Vec<usize> = (0..line.len()).filter(|place| line[*place] == b'=').collect();
    match ends.len() {
        0 | 1 => line,
        _ => &line[..prng.pick(&ends[1..])],
    }
}

fn noise(prng: &mut Prng) -> Vec<u8> {
    let any = prng.below(256) as u8;
    (0..prng.between(1, 3)).map(|_| prng.pick(&[b'a', b'b', b'=', b'\n', any])).collect()
}

/// Often at the bounds of what either text has, or of what fewer bits hold.
fn occurrence(prng: &mut Prng, texts: &[Lines; 2], wanted: &[u8]) -> u64 {
    let count = |text: &Lines| text.iter().filter(|line| key(line) == Some(wanted)).count() as u64;
    let [original, copy] = [count(&texts[0]), count(&texts[1])];
    let any = prng.between(1, original.max(copy).max(1));
    match prng.below(24) {
        0 => 0,
        1 => u64::MAX,
        2 => prng.pick(&[1 << 8, 1 << 16, 1 << 32, 1 << 63]) + any,
        3 => (original + copy).max(1),
        4 => original.max(copy) + 1,
        5 | 6 => original.max(1),
        7 => original + 1,
        8 | 9 => copy.max(1),
        10..=18 => any,
        _ => prng.pick(&[1, 1, 2]),
    }
}

/// Lists of as many places as are needed, or more, and of too few.
fn lists(prng: &mut Prng, needed: usize) -> Vec<Ask> {
    let longer = needed + prng.between(1, 9) as usize;
    let any = prng.below(needed as u64) as usize;
    let mut sizes = vec![prng.pick(&[needed, needed, longer])];
    if needed > 0 {
        sizes.push(prng.pick(&[needed - 1, needed - 1, 0, any]));
    }
    if prng.chance(1, 4) {
        sizes.push(prng.pick(&[0, longer, 2 * needed]));
    }
    let mut lent = |size: usize| (0..size).map(|_| prng.number()).collect();
    sizes.into_iter().map(|size| Ask::List { lent: lent(size) }).collect()
}
