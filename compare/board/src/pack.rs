//! The engine's raw tables as the 1,271 bytes that the library takes, and back. Numbers are
//! little-endian:
//!
//! | place | bytes | what |
//! |---|---|---|
//! | 0 | 8 | clock |
//! | 8 | 2 | the start year |
//! | 10 | 2 | T |
//! | 12 | 2 | S |
//! | 14 | 1 | R |
//! | 15 | 256 | the holder of each track |
//! | 271 | 16 x 2 | each resource number: owner, lock |
//! | 303 | 40 | links |
//! | 343 | 32 x 29 | records: used, name 5, priority 2, state, why kind, why number 2, due 8, interval 8, mark |
//!
//! A why has the kind 0 (nothing), 1 (tracks), 2 (son), 3 (lock) or 4 (number); only 1 to 3 have a
//! number, a son and a lock one below 256. `used` is 0 or 1, and so is the mark of request (ii). The
//! library answers 14 to other bytes, those of the two older forms among them, without the year and
//! without marks as well.
//! `unpack` reads any bytes, some the same as others, so that `in_form` is a test of its own;
//! `unpack` of `pack` always is the tables.

use crate::ffi::TABLES;
use engine::raw::{Raw, RawNumber, RawRecord, RawWhy, BLANK_NUMBER, SLOTS, UNUSED};
use engine::tables::RECORDS;
use std::convert::TryFrom;

pub type Bytes = [u8; TABLES];

pub const AT_YEAR: usize = 8;
pub const AT_TRACKS: usize = 15;
pub const AT_NUMBERS: usize = AT_TRACKS + 256;
pub const AT_LINKS: usize = AT_NUMBERS + 32;
pub const AT_RECORDS: usize = AT_LINKS + SLOTS;
pub const RECORD: usize = 29;
/// In a record, its last byte.
pub const MARK: usize = 28;
/// How long the form without a year is, and that without marks as well: there a record has a byte
/// less.
pub const WITHOUT_YEAR: usize = TABLES - 2;
pub const WITHOUT_MARKS: usize = WITHOUT_YEAR - RECORDS;

/// The kinds of a why, as bytes.
const NOTHING: u8 = 0;
const TRACKS: u8 = 1;
const SON: u8 = 2;
const LOCK: u8 = 3;
const NUMBER: u8 = 4;

/// The bytes of tables. Their numbers have to fit, as those of `unpack` and of sound tables do;
/// `narrow` makes them.
pub fn pack(raw: &Raw) -> Bytes {
    let mut bytes = [0; TABLES];
    let mut rest: &mut [u8] = &mut bytes;
    put(&mut rest, &raw.clock.to_le_bytes());
    put(&mut rest, &two(raw.year));
    put(&mut rest, &two(raw.t));
    put(&mut rest, &two(raw.s));
    put(&mut rest, &[one(raw.r)]);
    put(&mut rest, &raw.tracks);
    for number in &raw.numbers {
        put(&mut rest, &[number.owner, number.lock]);
    }
    put(&mut rest, &raw.links);
    for record in &raw.records {
        put_record(&mut rest, record);
    }
    assert!(rest.is_empty(), "every byte has its place");
    bytes
}

fn put_record(rest: &mut &mut [u8], record: &RawRecord) {
    let (kind, number) = match record.why {
        RawWhy::Nothing => (NOTHING, 0),
        RawWhy::Tracks(n) => (TRACKS, n),
        RawWhy::Son(k) => (SON, k),
        RawWhy::Lock(r) => (LOCK, r),
        RawWhy::Number => (NUMBER, 0),
    };
    put(rest, &[u8::from(record.used)]);
    put(rest, &record.name);
    put(rest, &two(record.priority));
    put(rest, &[one(record.state), kind]);
    put(rest, &two(number));
    put(rest, &record.due.to_le_bytes());
    put(rest, &record.interval.to_le_bytes());
    put(rest, &[u8::from(record.suspend)]);
}

fn put(rest: &mut &mut [u8], part: &[u8]) {
    let (front, back) = std::mem::take(rest).split_at_mut(part.len());
    front.copy_from_slice(part);
    *rest = back;
}

fn one(number: u64) -> u8 {
    u8::try_from(number).expect("a number that fits its byte")
}

fn two(number: u64) -> [u8; 2] {
    u16::try_from(number).expect("a number that fits its two bytes").to_le_bytes()
}

/// Whether bytes are tables in packed form, by the table above: seen byte by byte, with no packing
/// and no reading.
pub fn in_form(bytes: &[u8]) -> bool {
    bytes.len() == TABLES && bytes[AT_RECORDS..].chunks_exact(RECORD).all(record_in_form)
}

fn record_in_form(record: &[u8]) -> bool {
    let (used, kind, low, high) = (record[0], record[9], record[10], record[11]);
    let number = match kind {
        NOTHING | NUMBER => low == 0 && high == 0,
        TRACKS => true,
        SON | LOCK => high == 0,
        _ => false,
    };
    used <= 1 && number && record[MARK] <= 1
}

/// The tables in bytes that are in packed form.
pub fn formed(bytes: &[u8]) -> Option<Raw> {
    if !in_form(bytes) {
        return None;
    }
    Bytes::try_from(bytes).ok().map(|bytes| unpack(&bytes))
}

/// The tables that are read in these bytes, whatever they are.
pub fn unpack(bytes: &Bytes) -> Raw {
    let mut rest: &[u8] = bytes;
    let mut raw = Raw {
        records: [UNUSED; RECORDS],
        clock: number(&mut rest, 8),
        year: number(&mut rest, 2),
        t: number(&mut rest, 2),
        s: number(&mut rest, 2),
        r: number(&mut rest, 1),
        tracks: [0; 256],
        numbers: [BLANK_NUMBER; 16],
        links: [0; SLOTS],
    };
    raw.tracks.copy_from_slice(take(&mut rest, 256));
    for number in &mut raw.numbers {
        let part = take(&mut rest, 2);
        *number = RawNumber { owner: part[0], lock: part[1] };
    }
    raw.links.copy_from_slice(take(&mut rest, SLOTS));
    for record in &mut raw.records {
        *record = record_of(&mut rest);
    }
    raw
}

fn record_of(rest: &mut &[u8]) -> RawRecord {
    let used = take(rest, 1)[0] != 0;
    let mut name = [0; 5];
    name.copy_from_slice(take(rest, 5));
    let priority = number(rest, 2);
    let state = number(rest, 1);
    let kind = take(rest, 1)[0];
    let count = number(rest, 2);
    let why = match kind {
        NOTHING => RawWhy::Nothing,
        TRACKS => RawWhy::Tracks(count),
        SON => RawWhy::Son(count % 256),
        LOCK => RawWhy::Lock(count % 256),
        _ => RawWhy::Number,
    };
    let (due, interval) = (number(rest, 8), number(rest, 8));
    let suspend = take(rest, 1)[0] != 0;
    RawRecord { used, name, priority, state, why, due, interval, suspend }
}

fn take<'a>(rest: &mut &'a [u8], size: usize) -> &'a [u8] {
    let (front, back) = rest.split_at(size);
    *rest = back;
    front
}

fn number(rest: &mut &[u8], size: usize) -> u64 {
    let mut eight = [0; 8];
    eight[..size].copy_from_slice(take(rest, size));
    u64::from_le_bytes(eight)
}

/// The same tables in the form without a year.
pub fn without_year(bytes: &Bytes) -> Vec<u8> {
    [&bytes[..AT_YEAR], &bytes[AT_YEAR + 2..]].concat()
}

/// The same tables in the form without marks, which had no year either.
pub fn without_marks(bytes: &Bytes) -> Vec<u8> {
    let older = without_year(bytes);
    let (front, records) = older.split_at(AT_RECORDS - 2);
    let records = records.chunks_exact(RECORD).flat_map(|record| &record[..MARK]);
    front.iter().chain(records).copied().collect()
}

/// Cuts every number to what its bytes hold, so that the tables can be packed.
pub fn narrow(raw: &mut Raw) {
    raw.year %= 65_536;
    raw.t %= 65_536;
    raw.s %= 65_536;
    raw.r %= 256;
    for record in &mut raw.records {
        record.priority %= 65_536;
        record.state %= 256;
        record.why = match record.why {
            RawWhy::Tracks(n) => RawWhy::Tracks(n % 65_536),
            RawWhy::Son(k) => RawWhy::Son(k % 256),
            RawWhy::Lock(r) => RawWhy::Lock(r % 256),
            other => other,
        };
    }
}
