//! The outline, "The page and the console line": the console line.

use crate::answer::{self, refused, Answer, Outcome};
use crate::numbers::Kind;
use crate::tables::{legal_front, Engine, Name, USUAL_YEAR};

/// What a line asks for. Numbers are as written; whether they are in range is for the call to say.
#[derive(Clone, Copy, Debug, PartialEq, Eq)]
pub enum Request {
    Fresh(u64, u64, u64, Option<u64>),
    Load(Name, u64),
    Ru(Name),
    Ss(Name),
    Go(Name),
    Pr(Name, u64),
    Of(Name, u64),
    Tick,
    Ticks(u64),
    Exec4(u64, u64),
    Exec15(u64, u64),
    Exec5(u64, u64),
    Exec5All,
    Exec16(u64, u64),
    Exec6,
    Exec7,
    Exec9(Name),
    Exec10(Name),
    Exec11,
    Exec12(Name, u64, u64, u64),
    Alloc(Kind, u64),
    Lock(u64, u64),
    Clear(u64),
    Free(u64),
    Page,
}

pub const LONGEST_LINE: usize = 72;

/// Takes a line apart. None is answer 13: a wrong word, field count or field form.
pub fn parse(line: &[u8]) -> Option<Request> {
    if line.is_empty() || line.len() > LONGEST_LINE {
        return None;
    }
    let fields: Vec<&[u8]> = line.split(|b| *b == b',').collect();
    request(&fields)
}

fn request(fields: &[&[u8]]) -> Option<Request> {
    let request = match fields {
        [b"FRESH", t, s, r] => Request::Fresh(number(t)?, number(s)?, number(r)?, None),
        [b"FRESH", t, s, r, year] => {
            Request::Fresh(number(t)?, number(s)?, number(r)?, Some(number(year)?))
        }
        [b"LOAD", n, priority] => Request::Load(name(n)?, number(priority)?),
        [b"RU", n] => Request::Ru(name(n)?),
        [b"SS", n] => Request::Ss(name(n)?),
        [b"GO", n] => Request::Go(name(n)?),
        [b"PR", n, priority] => Request::Pr(name(n)?, number(priority)?),
        [b"OF", n, how] => Request::Of(name(n)?, number(how)?),
        [b"TICK"] => Request::Tick,
        [b"TICK", n] => Request::Ticks(number(n)?),
        [b"EXEC", exec_number, rest @ ..] => exec(number(exec_number)?, rest)?,
        [b"RN", b"ALLOC", b"L", w] => Request::Alloc(Kind::Local, number(w)?),
        [b"RN", b"ALLOC", b"G", w] => Request::Alloc(Kind::Global, number(w)?),
        [b"RN", b"LOCK", r, w] => Request::Lock(number(r)?, number(w)?),
        [b"RN", b"CLEAR", r] => Request::Clear(number(r)?),
        [b"RN", b"FREE", r] => Request::Free(number(r)?),
        [b"PAGE"] => Request::Page,
        _ => return None,
    };
    Some(request)
}

/// The EXEC lines; "an EXEC number not listed is 13".
fn exec(exec_number: u64, fields: &[&[u8]]) -> Option<Request> {
    let request = match (exec_number, fields) {
        (4, [n, w]) => Request::Exec4(number(n)?, number(w)?),
        (15, [n, w]) => Request::Exec15(number(n)?, number(w)?),
        (5, [b"ALL"]) => Request::Exec5All,
        (5, [n, start]) => Request::Exec5(number(n)?, number(start)?),
        (16, [n, start]) => Request::Exec16(number(n)?, number(start)?),
        (6, []) => Request::Exec6,
        (7, []) => Request::Exec7,
        (9, [n]) => Request::Exec9(name(n)?),
        (10, [n]) => Request::Exec10(name(n)?),
        (11, []) => Request::Exec11,
        (12, [n, resolution, multiple, offset]) => {
            Request::Exec12(name(n)?, number(resolution)?, number(multiple)?, number(offset)?)
        }
        _ => return None,
    };
    Some(request)
}

/// "numbers of 1 to 10 digits without leading zeros"
fn number(field: &[u8]) -> Option<u64> {
    if field.is_empty() || field.len() > 10 || !field.iter().all(u8::is_ascii_digit) {
        return None;
    }
    if field[0] == b'0' && field.len() > 1 {
        return None;
    }
    Some(field.iter().fold(0, |sum, b| sum * 10 + u64::from(b - b'0')))
}

/// "A name field is a legal name without its blanks"
pub(crate) fn name(field: &[u8]) -> Option<Name> {
    if !legal_front(field) {
        return None;
    }
    let mut name = *b"     ";
    name[..field.len()].copy_from_slice(field);
    Some(name)
}

impl Engine {
    /// One console line. PAGE writes its page into the lent buffer; every other line leaves the
    /// buffer as it was.
    pub fn line(&mut self, line: &[u8], buffer: &mut [u8]) -> Answer {
        Answer::of(match parse(line) {
            None => refused(answer::NOT_UNDERSTOOD),
            Some(request) => self.perform(request, buffer),
        })
    }

    pub fn perform(&mut self, request: Request, buffer: &mut [u8]) -> Outcome {
        match request {
            Request::Fresh(t, s, r, year) => self.fresh_line(t, s, r, year),
            Request::Load(name, priority) => self.load(name, priority),
            Request::Ru(name) => self.ru(name),
            Request::Ss(name) => self.ss(name),
            Request::Go(name) => self.go(name),
            Request::Pr(name, priority) => self.pr(name, priority),
            Request::Of(name, how) => self.of(name, how),
            Request::Tick => self.tick(),
            Request::Ticks(n) => self.ticks(n),
            Request::Exec4(n, w) => self.exec4(n, w),
            Request::Exec15(n, w) => self.exec15(n, w),
            Request::Exec5(n, start) => self.exec5(n, start),
            Request::Exec5All => self.exec5_all(),
            Request::Exec16(n, start) => self.exec16(n, start),
            Request::Exec6 => self.exec6(),
            Request::Exec7 => self.exec7(),
            Request::Exec9(name) => self.exec9(name),
            Request::Exec10(name) => self.exec10(name),
            Request::Exec11 => self.exec11(),
            Request::Exec12(name, resolution, multiple, offset) => {
                self.exec12(name, resolution, multiple, offset)
            }
            Request::Alloc(kind, w) => self.alloc(kind, w),
            Request::Lock(r, w) => self.lock(r, w),
            Request::Clear(r) => self.clear(r),
            Request::Free(r) => self.free(r),
            Request::Page => self.page(buffer),
        }
    }

    /// "FRESH,T,S,R (where refused, the tables given to the line stay)", and the start year, "without
    /// it the year is 1975".
    fn fresh_line(&mut self, t: u64, s: u64, r: u64, year: Option<u64>) -> Outcome {
        let (tables, outcome) = Engine::fresh(t, s, r, year.unwrap_or(USUAL_YEAR));
        if outcome.is_ok() {
            *self = tables;
        }
        outcome
    }
}
