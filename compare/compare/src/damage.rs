//! Tables that no run of calls leaves: one field of sound tables gets another value. Most of them
//! are to be refused with 14; those that are still sound have to work.

use crate::prng::Prng;
use engine::raw::{Raw, RawRecord, RawWhy, SLOTS};

const WILD: [u64; 20] =
    [0, 1, 2, 3, 4, 5, 6, 7, 8, 16, 32, 33, 34, 255, 256, 257, 32_767, 32_768, 1 << 40, u64::MAX];

pub fn damage(prng: &mut Prng, raw: &mut Raw) {
    let value = prng.pick(&WILD);
    let byte = prng.below(36) as u8;
    let now = raw.clock;
    let last = now.saturating_add(1_474_200_000).min(u64::MAX - 1);
    let record = &mut raw.records[prng.below(32) as usize];
    match prng.below(15) {
        0 => record.used = !record.used,
        1 => record.name[prng.below(5) as usize] = prng.pick(&[0, b' ', b'A', b'1', b'a', 255]),
        2 => record.priority = value,
        3 => record.state = prng.below(8),
        4 => record.why = prng.pick(&[RawWhy::Nothing, RawWhy::Tracks(value), RawWhy::Number]),
        5 => record.why = prng.pick(&[RawWhy::Son(value), RawWhy::Lock(value)]),
        6 => record.due = prng.pick(&[value, now, now.saturating_add(1), last, last + 1]),
        7 => record.interval = prng.pick(&[value, 1_474_200_000, 1_474_200_001]),
        8 => raw.tracks[prng.below(256) as usize] = byte,
        9 => raw.numbers[prng.below(16) as usize].owner = byte,
        10 => raw.numbers[prng.below(16) as usize].lock = byte,
        11 => raw.links[prng.below(SLOTS as u64) as usize] = byte,
        12 => exchange_links(prng, raw),
        13 => change_mark(prng, raw),
        _ => match prng.below(6) {
            0 => raw.clock = prng.pick(&[value, 1_000_000_000_000, 1_000_000_000_001]),
            1 => raw.t = value,
            2 => raw.s = value,
            3 => raw.r = value,
            _ => change_year(prng, raw),
        },
    }
}

/// Another start year, mostly none that FRESH takes.
pub fn change_year(prng: &mut Prng, raw: &mut Raw) {
    let wild = [0, 1, 75, 1969, 1969, 2100, 2100, 2415, 32_767, 65_535, 65_536 + 1975, u64::MAX];
    let right = [1970, 1975, 1976, 2099];
    raw.year = if prng.chance(1, 4) { prng.pick(&right) } else { prng.pick(&wild) };
}

/// The mark of a record that is not used, or of a program in some state, if there is one.
pub fn change_mark(prng: &mut Prng, raw: &mut Raw) {
    let state = prng.pick(&[None, Some(0), Some(1), Some(3), Some(5), Some(6)]);
    let so = |record: &&mut RawRecord| match state {
        Some(state) => record.used && record.state == state,
        None => !record.used,
    };
    let mut fitting: Vec<&mut RawRecord> = raw.records.iter_mut().filter(so).collect();
    if !fitting.is_empty() {
        let place = prng.below(fitting.len() as u64) as usize;
        fitting[place].suspend = !fitting[place].suspend;
    }
}

/// Two links in use change places: chains cross, close on themselves, or only change their order.
fn exchange_links(prng: &mut Prng, raw: &mut Raw) {
    let in_use: Vec<usize> = (0..SLOTS).filter(|slot| raw.links[*slot] != 0).collect();
    if !in_use.is_empty() {
        let (one, two) = (prng.pick(&in_use), prng.pick(&in_use));
        raw.links.swap(one, two);
    }
}
