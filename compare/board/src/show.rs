//! Tables and answers in print, for the report of a difference.

use crate::ffi::{Reply, ANSWER};
use crate::pack::{pack, unpack, Bytes};
use comparer::report::shown;
use engine::raw::{Raw, RawRecord, RawWhy, GLOBAL, LINKS, SLOTS, SYSTEM, UNUSED};
use engine::sheet::lines;
use engine::tables::RECORDS;
use std::convert::TryFrom;

/// A line for each field, in an order that does not depend on the values, so that two tables can be
/// compared line by line. What is blank is left empty.
fn fields(raw: &Raw) -> Vec<String> {
    let mut list = vec![
        format!("clock {}", raw.clock),
        format!("year {}", raw.year),
        format!("T {}, S {}, R {}", raw.t, raw.s, raw.r),
    ];
    for (place, record) in raw.records.iter().enumerate() {
        list.push(if *record == UNUSED { String::new() } else { record_line(place + 1, record) });
    }
    for state in 0..LINKS {
        list.push(chain_line(raw, state));
    }
    list.push(links_line(raw));
    list.push(format!("tracks {}", runs(&raw.tracks).join(", ")));
    for (place, number) in raw.numbers.iter().enumerate() {
        let blank = number.owner == 0 && number.lock == 0;
        let text =
            format!("number {}: owner {}, lock {}", place + 1, holder(number.owner), number.lock);
        list.push(if blank { String::new() } else { text });
    }
    list
}

fn record_line(p: usize, record: &RawRecord) -> String {
    let why = match record.why {
        RawWhy::Nothing => String::from("-"),
        RawWhy::Tracks(n) => format!("tracks:{}", n),
        RawWhy::Son(k) => format!("son:{}", k),
        RawWhy::Lock(r) => format!("lock:{}", r),
        RawWhy::Number => String::from("number"),
    };
    format!(
        "program {}: {}name \"{}\", priority {}, state {}, why {}, due {}, interval {}{}",
        p,
        if record.used { "" } else { "unused, " },
        shown(&record.name),
        record.priority,
        record.state,
        why,
        record.due,
        record.interval,
        if record.suspend { ", marked" } else { "" }
    )
}

/// As far as the links lead; a program met twice is shown twice and ends it.
fn chain_line(raw: &Raw, state: usize) -> String {
    let mut met: Vec<String> = Vec::new();
    let mut next = usize::from(raw.links[state]);
    while next != 0 {
        let again = met.contains(&next.to_string());
        met.push(next.to_string());
        if again || next > RECORDS {
            break;
        }
        next = usize::from(raw.links[LINKS + next]);
    }
    if met.is_empty() {
        return String::new();
    }
    format!("chain {}: {}", state, met.join(" -> "))
}

/// The links of programs, whatever chain they belong to.
fn links_line(raw: &Raw) -> String {
    let in_use = (LINKS..SLOTS).filter(|slot| raw.links[*slot] != 0);
    let list: Vec<String> =
        in_use.map(|slot| format!("{}->{}", slot - LINKS, raw.links[slot])).collect();
    format!("links {}", list.join(" "))
}

fn holder(byte: u8) -> String {
    match byte {
        0 => String::from("free"),
        GLOBAL => String::from("global"),
        SYSTEM => String::from("system"),
        other => other.to_string(),
    }
}

fn runs(tracks: &[u8]) -> Vec<String> {
    let mut list = Vec::new();
    let mut first = 0;
    for track in 0..tracks.len() {
        if tracks.get(track + 1) == Some(&tracks[track]) {
            continue;
        }
        list.push(format!("{}-{}:{}", first, track, holder(tracks[track])));
        first = track + 1;
    }
    list
}

/// The tables that are read in these bytes, and each byte that is not in packed form.
pub fn tables(bytes: &[u8]) -> Vec<String> {
    let bytes = match Bytes::try_from(bytes) {
        Ok(bytes) => bytes,
        Err(_) => return vec![format!("{} bytes, which are no tables", bytes.len())],
    };
    let raw = unpack(&bytes);
    let mut list: Vec<String> =
        fields(&raw).into_iter().filter(|field| !field.is_empty()).collect();
    list.extend(unformed(&bytes));
    list
}

/// Bytes that are read the same as those of the packed form and yet are others.
fn unformed(bytes: &Bytes) -> Vec<String> {
    let form = pack(&unpack(bytes));
    let pairs = bytes.iter().zip(form.iter()).enumerate();
    pairs
        .filter(|(_, (given, formed))| given != formed)
        .map(|(place, (given, formed))| format!("byte {} is {}, not {}", place, given, formed))
        .collect()
}

/// The fields in which the tables after a call differ from those before it.
pub fn changes(before: &[u8], after: &[u8]) -> Vec<String> {
    if before == after {
        return vec![String::from("as before")];
    }
    let (old, new) = match (Bytes::try_from(before), Bytes::try_from(after)) {
        (Ok(old), Ok(new)) => (old, new),
        _ => return vec![String::from("other bytes")],
    };
    let mut list = Vec::new();
    for (old, new) in fields(&unpack(&old)).iter().zip(&fields(&unpack(&new))) {
        if old != new {
            list.push(if new.is_empty() { format!("{} -> blank", old) } else { new.clone() });
        }
    }
    list.extend(unformed(&new));
    if list.is_empty() {
        list.push(String::from("the same, in packed form"));
    }
    list
}

/// The answer in the bytes lent for it, and how many there are.
pub fn answer(bytes: &[u8]) -> String {
    match bytes.get(..ANSWER).and_then(|front| <[u8; ANSWER]>::try_from(front).ok()) {
        Some(front) => {
            let Reply { number, values } = Reply::of_bytes(&front);
            let rest = &bytes[ANSWER..];
            format!("answer {}, values {:?}, and behind it {:?}", number, values, rest)
        }
        None => format!("{} bytes for the answer: {:?}", bytes.len(), bytes),
    }
}

/// How a buffer differs from another of its length: the lines from the first byte that differs to
/// the last.
pub fn buffer(one: &[u8], other: &[u8]) -> Vec<String> {
    let differ: Vec<usize> = (0..one.len()).filter(|place| one[*place] != other[*place]).collect();
    let (first, last) = match (differ.first(), differ.last()) {
        (Some(first), Some(last)) => (*first, *last),
        _ => return vec![String::from("no difference")],
    };
    let mut list = vec![format!("bytes {} to {} differ:", first, last)];
    list.extend(lines(&other[first..=last]).into_iter().map(shown));
    list
}

/// The most differing bytes that are shown.
const MOST_PLACES: usize = 20;

/// The first bytes in which two buffers differ.
pub fn places(one: &[u8], other: &[u8]) -> Vec<String> {
    let differ = (0..one.len().min(other.len())).filter(|place| one[*place] != other[*place]);
    let shown = |place: usize| format!("byte {} is {}, not {}", place, other[place], one[place]);
    differ.take(MOST_PLACES).map(shown).collect()
}
