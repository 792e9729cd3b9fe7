//! Request (i): a page read back. The bytes that PAGE writes from some sound tables are accepted,
//! and no others. The form of each line is seen first; what the lines say is put into tables as far
//! as they hold it, and of those it is asked whether they are sound and would be written so.

use crate::answer::{self, Answer};
use crate::line::name;
use crate::raw::{Raw, RawNumber, RawRecord, RawWhy, GLOBAL, LINKS, SYSTEM};
use crate::tables::{Engine, RECORDS, USUAL_YEAR};

/// "numbers of at most 13 digits"
pub const MOST_DIGITS: usize = 13;

/// The tables that write this page, and answer 0. Or the smallest tables and 15, page not read:
/// value the first line, from 1, that is not well formed, or the line after the last where the page
/// stops short, or 0 where all lines are well formed but no sound tables write them.
pub fn read(page: &[u8]) -> (Raw, Answer) {
    let mut reader = Reader { rest: page, number: 1 };
    let mut draft = Draft::new();
    let refused = match reader.page(&mut draft) {
        None => reader.number,
        Some(()) if !draft.written_so() => 0,
        Some(()) => return (draft.raw, Answer::new(0, 0)),
    };
    (Raw::of(&Engine::smallest()), Answer::new(answer::NOT_READ, refused))
}

/// The page from the place on at which the reader is.
struct Reader<'a> {
    rest: &'a [u8],
    /// Of the line at that place.
    number: u64,
}

/// A record as it stands on the page.
struct Shown {
    id: u64,
    record: RawRecord,
    due: Option<u64>,
    interval: Option<u64>,
}

impl<'a> Reader<'a> {
    /// The whole page. None at the first line that is not well formed, where the reader stays.
    fn page(&mut self, draft: &mut Draft) -> Option<()> {
        self.line(b"page", |field| word(field, b"rte2"))?;
        draft.raw.clock = self.line(b"clock", number)?;
        // Request (iv): the line is there unless the year is the usual one.
        if let Some(year) = self.line(b"year", number) {
            draft.put_year(year);
        }
        draft.raw.t = self.line(b"tracks", number)?;
        draft.raw.s = self.line(b"system", number)?;
        draft.raw.r = self.line(b"numbers", number)?;
        let programs = self.line(b"programs", number)?;
        for _ in 0..programs {
            let shown = self.record()?;
            draft.put_record(shown);
        }
        self.line(b"chain1", |field| draft.put_chain(1, field))?;
        self.line(b"chain3", |field| draft.put_chain(3, field))?;
        self.line(b"chain5", |field| draft.put_chain(5, field))?;
        self.line(b"chain6", |field| draft.put_chain(6, field))?;
        draft.put_system();
        while let Some((first, last, holder)) = self.line(b"held", held) {
            draft.put_run(first, last, holder);
        }
        while let Some((r, owner, lock)) = self.line(b"number", allocated) {
            draft.put_number(r, owner, lock);
        }
        self.line(b"end", |field| word(field, b"page"))?;
        // No key may come behind the end.
        if self.rest.is_empty() {
            Some(())
        } else {
            None
        }
    }

    fn record(&mut self) -> Option<Shown> {
        let id = self.line(b"id", number)?;
        let name = self.line(b"name", name)?;
        let priority = self.line(b"priority", number)?;
        let state = self.line(b"state", number)?;
        let why = self.line(b"why", why)?;
        let due = self.line(b"due", number_or_dash)?;
        let interval = self.line(b"interval", number_or_dash)?;
        // Request (ii): the line is there where the mark stands, otherwise no line.
        let suspend = self.line(b"suspend", |field| word(field, b"1")).is_some();
        let record =
            RawRecord { used: true, name, priority, state, why, due: 0, interval: 0, suspend };
        Some(Shown { id, record, due, interval })
    }

    /// Goes over the next line, if it is ended by byte 10, has this key, and its field has this
    /// shape. Otherwise the reader stays before it.
    fn line<T>(&mut self, key: &[u8], shape: impl FnOnce(&'a [u8]) -> Option<T>) -> Option<T> {
        let field = self.rest.strip_prefix(key)?.strip_prefix(b"=")?;
        let end = field.iter().position(|b| *b == b'\n')?;
        let shaped = shape(&field[..end])?;
        self.rest = &field[end + 1..];
        self.number += 1;
        Some(shaped)
    }
}

fn word(field: &[u8], wanted: &[u8]) -> Option<()> {
    if field == wanted {
        Some(())
    } else {
        None
    }
}

/// Digits without leading zeros.
fn number(field: &[u8]) -> Option<u64> {
    if field.is_empty() || field.len() > MOST_DIGITS || field.len() > 1 && field[0] == b'0' {
        return None;
    }
    let mut sum = 0;
    for b in field {
        if !b.is_ascii_digit() {
            return None;
        }
        sum = sum * 10 + u64::from(b - b'0');
    }
    Some(sum)
}

/// Within it, none is the dash.
fn number_or_dash(field: &[u8]) -> Option<Option<u64>> {
    if field == b"-" {
        Some(None)
    } else {
        number(field).map(Some)
    }
}

/// Within it, none is `global`.
fn number_or_global(field: &[u8]) -> Option<Option<u64>> {
    if field == b"global" {
        Some(None)
    } else {
        number(field).map(Some)
    }
}

/// `-`, `tracks:n`, `son:k`, `lock:r`, `number`
fn why(field: &[u8]) -> Option<RawWhy> {
    match field {
        b"-" => return Some(RawWhy::Nothing),
        b"number" => return Some(RawWhy::Number),
        _ => {}
    }
    let (kind, n) = parted(field, b':')?;
    match kind {
        b"tracks" => number(n).map(RawWhy::Tracks),
        b"son" => number(n).map(RawWhy::Son),
        b"lock" => number(n).map(RawWhy::Lock),
        _ => None,
    }
}

/// `first-last:holder`
fn held(field: &[u8]) -> Option<(u64, u64, Option<u64>)> {
    let (run, holder) = parted(field, b':')?;
    let (first, last) = parted(run, b'-')?;
    Some((number(first)?, number(last)?, number_or_global(holder)?))
}

/// `r:owner:lock`
fn allocated(field: &[u8]) -> Option<(u64, Option<u64>, Option<u64>)> {
    let (r, rest) = parted(field, b':')?;
    let (owner, lock) = parted(rest, b':')?;
    Some((number(r)?, number_or_global(owner)?, number_or_dash(lock)?))
}

/// What is before the first of these marks and what is behind it.
fn parted(field: &[u8], mark: u8) -> Option<(&[u8], &[u8])> {
    let place = field.iter().position(|b| *b == mark)?;
    Some((&field[..place], &field[place + 1..]))
}

/// Tables that are being read. What is wrong with a line but its form is only noted, since the
/// lines after it have to be well formed all the same.
struct Draft {
    raw: Raw,
    /// Whether sound tables may have written the lines up to here.
    fits: bool,
    /// The id of the last record.
    id: u64,
    /// Whether a program is in a chain, by its number.
    linked: [bool; RECORDS + 1],
    /// The track behind the last run.
    track: u64,
    /// The last number that was allocated.
    r: u64,
}

impl Draft {
    fn new() -> Draft {
        let raw = Raw::of(&Engine::smallest());
        Draft { raw, fits: true, id: 0, linked: [false; RECORDS + 1], track: 0, r: 0 }
    }

    /// Of what a page can say and tables cannot hold, the lines left nothing (`fits`): records,
    /// runs and numbers come upward, each run is a longest one, and no program is in chains twice.
    /// So these tables would be written so, if they are tables.
    fn written_so(&self) -> bool {
        self.fits && self.raw.sound()
    }

    fn require(&mut self, condition: bool) -> bool {
        self.fits &= condition;
        condition
    }

    /// The usual year is not written.
    fn put_year(&mut self, year: u64) {
        self.require(year != USUAL_YEAR);
        self.raw.year = year;
    }

    fn put_record(&mut self, shown: Shown) {
        let upward = self.id < shown.id && shown.id <= RECORDS as u64;
        if !self.require(upward) {
            return;
        }
        self.id = shown.id;
        let record = &mut self.raw.records[shown.id as usize - 1];
        *record = shown.record;
        match (shown.due, shown.interval) {
            (None, None) => {}
            // In the tables a due of 0 is no timer, which is shown by dashes.
            (Some(due), Some(interval)) if due > 0 => {
                record.due = due;
                record.interval = interval;
            }
            _ => self.fits = false,
        }
    }

    /// "numbers joined by commas", or nothing: none if it is not that.
    fn put_chain(&mut self, state: usize, field: &[u8]) -> Option<()> {
        if field.is_empty() {
            return Some(());
        }
        let mut slot = state;
        for member in field.split(|b| *b == b',') {
            let p = self.program(number(member)?);
            let once = !self.linked[usize::from(p)];
            if self.require(once) {
                self.linked[usize::from(p)] = true;
                self.raw.links[slot] = p;
                slot = LINKS + usize::from(p);
            }
        }
        Some(())
    }

    /// The number of a program; 0 if no program has it.
    fn program(&mut self, p: u64) -> u8 {
        if self.require((1..=RECORDS as u64).contains(&p)) {
            p as u8
        } else {
            0
        }
    }

    /// A program, or none for global.
    fn holder(&mut self, holder: Option<u64>) -> u8 {
        holder.map_or(GLOBAL, |p| self.program(p))
    }

    /// "The first S belong to the system": no line tells them.
    fn put_system(&mut self) {
        let most = self.raw.tracks.len() as u64;
        self.raw.tracks[..self.raw.s.min(most) as usize].fill(SYSTEM);
    }

    fn put_run(&mut self, first: u64, last: u64, holder: Option<u64>) {
        let holder = self.holder(holder);
        let most = self.raw.tracks.len() as u64;
        if !self.require(self.track <= first && first <= last && last < most) {
            return;
        }
        self.track = last + 1;
        let (first, last) = (first as usize, last as usize);
        // It would be one run with that before it.
        let longer = first > 0 && self.raw.tracks[first - 1] == holder;
        self.require(!longer);
        self.raw.tracks[first..=last].fill(holder);
    }

    fn put_number(&mut self, r: u64, owner: Option<u64>, lock: Option<u64>) {
        let owner = self.holder(owner);
        let lock = lock.map_or(0, |p| self.program(p));
        let most = self.raw.numbers.len() as u64;
        if self.require(self.r < r && r <= most) {
            self.r = r;
            self.raw.numbers[r as usize - 1] = RawNumber { owner, lock };
        }
    }
}
