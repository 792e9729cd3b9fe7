//! What a caller could hand in instead of sound tables: a byte or a bit changed, fields exchanged,
//! another form, another length, noise. Some of it is still sound, and has to work.

use crate::ffi::TABLES;
use crate::pack::{
    narrow, without_marks, without_year, Bytes, AT_RECORDS, AT_YEAR, MARK, RECORD, WITHOUT_MARKS,
    WITHOUT_YEAR,
};
use comparer::damage::{change_mark, change_year, damage};
use comparer::prng::Prng;
use engine::raw::{Raw, RawWhy, LINKS, SLOTS};
use engine::tables::{CHAINS, FURTHEST, RECORDS};

/// One byte, any of them, gets any value, often one that means something at its place.
pub fn change_byte(prng: &mut Prng, bytes: &mut Bytes) {
    let any = prng.below(TABLES as u64) as usize;
    // Now and then one of the year.
    let place = if prng.chance(1, 25) { AT_YEAR + any % 2 } else { any };
    let old = bytes[place];
    let any = prng.below(256) as u8;
    let near = [0, 1, 2, 3, 4, 5, 6, 31, 32, 33, 34, 35, 127, 128, 255];
    let value = match prng.below(4) {
        0 => prng.pick(&near),
        1 => prng.pick(&[old.wrapping_add(1), old.wrapping_sub(1)]),
        _ => any,
    };
    bytes[place] = value;
}

pub fn change_bit(prng: &mut Prng, bytes: &mut Bytes) {
    let bit = prng.below(8 * TABLES as u64) as usize;
    bytes[bit / 8] ^= 1 << (bit % 8);
}

/// Bytes that were never tables: all of them, or a stretch of sound ones.
pub fn noise(prng: &mut Prng, bytes: &mut Bytes) {
    let (start, end) = match prng.below(3) {
        0 => (0, TABLES),
        _ => {
            let start = prng.below(TABLES as u64);
            let end = (start + prng.between(2, 60)).min(TABLES as u64);
            (start as usize, end as usize)
        }
    };
    let most = prng.pick(&[2, 8, 36, 256]);
    for byte in &mut bytes[start..end] {
        *byte = prng.below(most) as u8;
    }
}

/// One byte of a record such that the same tables are read in the bytes, and yet they are not in
/// packed form: a `used` or a mark above 1, a kind of why above 4, a number where the why has none,
/// a son or a lock of 256 and more.
pub fn reform(prng: &mut Prng, bytes: &mut Bytes) {
    let at = AT_RECORDS + RECORD * prng.below(RECORDS as u64) as usize;
    let kind = bytes[at + 9];
    let any = prng.between(1, 255) as u8;
    let more = prng.between(1, 251) as u8;
    let marked = bytes[at + MARK] == 1;
    let (place, value) = match prng.below(4) {
        _ if marked && prng.chance(1, 2) => (MARK, prng.pick(&[2, 255, 1 + more])),
        0 if bytes[at] == 1 => (0, prng.pick(&[2, 1 + more])),
        1 if kind == 4 => (9, prng.pick(&[5, 4 + more])),
        2 if kind == 0 || kind == 4 => (10, prng.pick(&[1, any])),
        _ if kind != 1 => (11, prng.pick(&[1, any])),
        _ if bytes[at] == 1 => (0, prng.pick(&[2, 255])),
        _ => return,
    };
    bytes[at + place] = value;
}

/// Bytes of another length: some taken off the end, all of them, some more put behind, or the same
/// tables in one of the older forms, without the year, and without marks as well.
pub fn resize(prng: &mut Prng, bytes: &Bytes) -> Vec<u8> {
    match prng.below(6) {
        0 => return without_year(bytes),
        1 => return without_marks(bytes),
        _ => {}
    }
    let fewer = prng.below(TABLES as u64) as usize;
    let sizes = [
        0,
        1,
        14,
        fewer,
        WITHOUT_MARKS,
        WITHOUT_YEAR,
        TABLES - 1,
        TABLES + 1,
        TABLES + RECORD,
        2 * TABLES,
    ];
    let mut bytes = bytes.to_vec();
    bytes.resize(prng.pick(&sizes), prng.below(256) as u8);
    bytes
}

/// One to three fields change places, or one takes the value of another.
pub fn exchange(prng: &mut Prng, raw: &mut Raw) {
    for _ in 0..prng.between(1, 3) {
        match prng.below(14) {
            0 => swap_links(prng, raw),
            1 => bend_link(prng, raw),
            2 | 3 => swap_neighbours(prng, raw),
            4 => join_chains(prng, raw),
            5 => move_state(prng, raw),
            6 | 7 => swap_parts(prng, raw),
            8 => swap_sons(prng, raw),
            9 => swap_holders(prng, raw),
            10 => swap_limits(prng, raw),
            11 => change_mark(prng, raw),
            12 => {
                change_year(prng, raw);
                narrow(raw);
            }
            _ => {
                damage(prng, raw);
                narrow(raw);
            }
        }
    }
}

/// The place of a used record, if there is one; now and then of any.
fn place(prng: &mut Prng, raw: &Raw) -> usize {
    let used: Vec<usize> = (0..RECORDS).filter(|place| raw.records[*place].used).collect();
    if used.is_empty() || prng.chance(1, 10) {
        return prng.below(RECORDS as u64) as usize;
    }
    prng.pick(&used)
}

/// Two links in use: chains cross, close on themselves, or only change their order.
fn swap_links(prng: &mut Prng, raw: &mut Raw) {
    let in_use: Vec<usize> = (0..SLOTS).filter(|slot| raw.links[*slot] != 0).collect();
    if !in_use.is_empty() {
        let (one, two) = (prng.pick(&in_use), prng.pick(&in_use));
        raw.links.swap(one, two);
    }
}

/// The link of a program, often of the last in a chain, leads to some program or to the end: a
/// cycle, a tail that two chains share, or a chain cut off.
fn bend_link(prng: &mut Prng, raw: &mut Raw) {
    let chain = raw.walk(usize::from(prng.pick(&CHAINS)));
    let from = match chain.last() {
        Some(last) if prng.chance(1, 2) => *last,
        _ => place(prng, raw) + 1,
    };
    let to = match chain.first() {
        Some(first) if prng.chance(1, 3) => *first,
        _ if prng.chance(1, 4) => 0,
        _ => place(prng, raw) + 1,
    };
    raw.links[LINKS + from] = to as u8;
}

/// Two neighbours of one chain: sound still, if they are equals.
fn swap_neighbours(prng: &mut Prng, raw: &mut Raw) {
    let state = usize::from(prng.pick(&CHAINS));
    let chain = raw.walk(state);
    if chain.len() < 2 || chain.len() > RECORDS {
        return;
    }
    let place = prng.below(chain.len() as u64 - 1) as usize;
    let (first, second) = (chain[place], chain[place + 1]);
    let before = if place == 0 { state } else { LINKS + chain[place - 1] };
    raw.links[before] = second as u8;
    raw.links[LINKS + first] = raw.links[LINKS + second];
    raw.links[LINKS + second] = first as u8;
}

/// A chain goes on into another, whose head stays or goes.
fn join_chains(prng: &mut Prng, raw: &mut Raw) {
    let (one, two) = (usize::from(prng.pick(&CHAINS)), usize::from(prng.pick(&CHAINS)));
    let end = raw.walk(one).last().map_or(one, |last| LINKS + last);
    raw.links[end] = raw.links[two];
    if prng.chance(1, 2) {
        raw.links[two] = 0;
    }
}

/// The state alone, or with the why of a program of that state.
fn move_state(prng: &mut Prng, raw: &mut Raw) {
    let (one, two) = (place(prng, raw), place(prng, raw));
    raw.records[one].state = prng.pick(&[0, 1, 2, 3, 4, 5, 6, 7]);
    if prng.chance(1, 2) {
        raw.records[one].state = raw.records[two].state;
        raw.records[one].why = raw.records[two].why;
    }
}

/// A part of two records, or the whole of them.
fn swap_parts(prng: &mut Prng, raw: &mut Raw) {
    let (one, two) = (place(prng, raw), place(prng, raw));
    let (mut first, mut second) = (raw.records[one], raw.records[two]);
    match prng.below(9) {
        0 => std::mem::swap(&mut first.state, &mut second.state),
        1 => std::mem::swap(&mut first.why, &mut second.why),
        2 => std::mem::swap(&mut first.priority, &mut second.priority),
        3 => std::mem::swap(&mut first.name, &mut second.name),
        4 => first.name = second.name,
        5 => std::mem::swap(&mut first.due, &mut second.due),
        6 => std::mem::swap(&mut first.due, &mut first.interval),
        7 => std::mem::swap(&mut first.suspend, &mut second.suspend),
        _ => std::mem::swap(&mut first, &mut second),
    }
    raw.records[two] = second;
    // Last, so that a record changed within itself is kept where both places are one.
    raw.records[one] = first;
}

/// A father gets the son of another, himself, or any number.
fn swap_sons(prng: &mut Prng, raw: &mut Raw) {
    let fathers: Vec<usize> =
        (0..RECORDS).filter(|p| matches!(raw.records[*p].why, RawWhy::Son(_))).collect();
    if fathers.is_empty() {
        return;
    }
    let father = prng.pick(&fathers);
    raw.records[father].why = match prng.below(4) {
        0 => RawWhy::Son(father as u64 + 1),
        1 => RawWhy::Son(prng.below(40)),
        2 => RawWhy::Son(place(prng, raw) as u64 + 1),
        _ => raw.records[prng.pick(&fathers)].why,
    };
}

/// Of tracks, of numbers, or owner and lock of one number.
fn swap_holders(prng: &mut Prng, raw: &mut Raw) {
    let top = prng.pick(&[raw.t.clamp(1, 256), 256]);
    let track = prng.below(top) as usize;
    let number = prng.below(16) as usize;
    match prng.below(4) {
        0 => raw.tracks.swap(track, prng.below(top) as usize),
        1 => raw.numbers.swap(number, prng.below(16) as usize),
        2 => {
            let number = &mut raw.numbers[number];
            std::mem::swap(&mut number.owner, &mut number.lock);
        }
        _ => std::mem::swap(&mut raw.tracks[track], &mut raw.numbers[number].owner),
    }
}

/// T, S, R, the year and the clock: exchanged, one step off, or taken from elsewhere.
fn swap_limits(prng: &mut Prng, raw: &mut Raw) {
    let record = place(prng, raw);
    let due = raw.records[record].due;
    match prng.below(10) {
        8 => std::mem::swap(&mut raw.year, &mut raw.t),
        9 => raw.year = prng.pick(&[(raw.year + 1) % 65_536, raw.year.saturating_sub(1)]),
        0 => std::mem::swap(&mut raw.t, &mut raw.s),
        1 => raw.t = (raw.t + 1) % 65_536,
        2 => raw.t = raw.t.saturating_sub(1),
        3 => raw.s = prng.pick(&[raw.s.saturating_sub(1), (raw.s + 1) % 65_536]),
        4 => raw.r = prng.pick(&[raw.r.saturating_sub(1), (raw.r + 1) % 256]),
        5 if due > 0 => raw.clock = prng.pick(&[due, due - 1, due.saturating_add(1)]),
        6 => raw.records[record].due = raw.clock.saturating_add(prng.below(2)),
        _ => {
            let last = raw.clock.saturating_add(FURTHEST);
            raw.records[record].due = prng.pick(&[last, last.saturating_add(1)]);
        }
    }
}
