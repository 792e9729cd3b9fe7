//! The outline, "The tables", and FRESH.

use crate::answer::{self, done, refused, Answer, Outcome};
use std::collections::BTreeMap;

pub const RECORDS: usize = 32;
pub const MOST_TRACKS: u64 = 256;
pub const MOST_NUMBERS: u64 = 16;
pub const LOWEST_PRIORITY: u64 = 32_767;
/// Where the clock stops.
pub const CEILING: u64 = 1_000_000_000_000;
/// The start year of request (iv): the first and the last that FRESH takes, and that without one.
pub const EARLIEST_YEAR: u64 = 1970;
pub const LATEST_YEAR: u64 = 2099;
pub const USUAL_YEAR: u64 = 1975;
/// 4,095 times the longest unit: no due lies further ahead, and no interval is longer.
pub const FURTHEST: u64 = 1_474_200_000;

pub const DORMANT: u8 = 0;
pub const SCHEDULED: u8 = 1;
pub const GENERAL_WAIT: u8 = 3;
pub const DISC: u8 = 5;
pub const SUSPENDED: u8 = 6;
/// The states that have a chain: each but dormant.
pub const CHAINS: [u8; 4] = [SCHEDULED, GENERAL_WAIT, DISC, SUSPENDED];

/// Five bytes: a letter, then letters or digits, blanks at the end.
pub type Name = [u8; 5];

/// What a program waits for.
#[derive(Clone, Copy, Debug, PartialEq, Eq)]
pub enum Why {
    Nothing,
    Tracks(u64),
    Son(usize),
    Lock(usize),
    Number,
}

#[derive(Clone, Copy, Debug, PartialEq, Eq)]
pub struct Timer {
    pub due: u64,
    /// 0 means once.
    pub interval: u64,
}

#[derive(Clone, Debug, PartialEq, Eq)]
pub struct Program {
    pub name: Name,
    pub priority: u64,
    pub state: u8,
    pub why: Why,
    pub timer: Option<Timer>,
    /// The mark of request (ii): SS was asked while the program waited, so it is suspended when it
    /// wakes.
    pub suspend: bool,
    /// Grows with every entry into a chain: the earlier of two equals has the lower one.
    pub entry: i64,
}

/// Of a track or of a resource number (where System does not occur).
#[derive(Clone, Copy, Debug, PartialEq, Eq)]
pub enum Holder {
    Free,
    Program(usize),
    Global,
    System,
}

#[derive(Clone, Copy, Debug, PartialEq, Eq)]
pub struct Number {
    pub owner: Holder,
    /// The program that locks it; none if it is clear.
    pub lock: Option<usize>,
}

pub const FREE_NUMBER: Number = Number { owner: Holder::Free, lock: None };

#[derive(Clone, Debug, PartialEq, Eq)]
pub struct Engine {
    pub clock: u64,
    /// The start year: clock 0 is the start of its day 1.
    pub year: u64,
    /// The used records, by program number 1 to 32. An unused one is not in the map.
    pub programs: BTreeMap<usize, Program>,
    /// S; T is the length of `tracks`.
    pub system: u64,
    pub tracks: Vec<Holder>,
    /// Number r is at place r - 1; R is the length.
    pub numbers: Vec<Number>,
    /// How many entries into chains there were.
    pub(crate) entries: i64,
}

impl Engine {
    /// T=1, S=0, R=0, and the usual year.
    pub fn smallest() -> Engine {
        Engine::empty(1, 0, 0, USUAL_YEAR)
    }

    /// FRESH. Refused, it yields the smallest tables.
    pub fn fresh(t: u64, s: u64, r: u64, year: u64) -> (Engine, Outcome) {
        let sizes = (1..=MOST_TRACKS).contains(&t) && s <= t && r <= MOST_NUMBERS;
        if sizes && (EARLIEST_YEAR..=LATEST_YEAR).contains(&year) {
            (Engine::empty(t, s, r, year), done(0))
        } else {
            (Engine::smallest(), refused(answer::NOT_ALLOWED))
        }
    }

    fn empty(t: u64, s: u64, r: u64, year: u64) -> Engine {
        let holder = |track| if track < s { Holder::System } else { Holder::Free };
        Engine {
            clock: 0,
            year,
            programs: BTreeMap::new(),
            system: s,
            tracks: (0..t).map(holder).collect(),
            numbers: (0..r).map(|_| FREE_NUMBER).collect(),
            entries: 0,
        }
    }

    /// T
    pub fn t(&self) -> u64 {
        self.tracks.len() as u64
    }

    /// R
    pub fn r(&self) -> u64 {
        self.numbers.len() as u64
    }

    /// The chain of a state: its programs, lowest priority number first and, among equals, the
    /// earlier entry first.
    pub fn chain(&self, state: u8) -> Vec<usize> {
        let mut members: Vec<(u64, i64, usize)> = self
            .programs
            .iter()
            .filter(|(_, program)| program.state == state)
            .map(|(p, program)| (program.priority, program.entry, *p))
            .collect();
        members.sort_unstable();
        members.iter().map(|(_, _, p)| *p).collect()
    }

    /// Test 2. The caller is the head of the scheduled chain.
    pub fn caller(&self) -> Result<usize, Answer> {
        match self.chain(SCHEDULED).first() {
            Some(p) => Ok(*p),
            None => Err(Answer::new(answer::NO_CALLER, 0)),
        }
    }

    /// Test 4: no such program.
    pub fn find(&self, name: Name) -> Result<usize, Answer> {
        let named = self.programs.iter().find(|(_, program)| program.name == name);
        match named {
            Some((p, _)) => Ok(*p),
            None => Err(Answer::new(answer::NO_PROGRAM, 0)),
        }
    }

    /// Test 5: program in the wrong state; the value is its state.
    pub(crate) fn in_state(&self, p: usize, state: u8) -> Result<(), Answer> {
        let found = self.programs[&p].state;
        if found == state {
            Ok(())
        } else {
            Err(Answer::new(answer::WRONG_STATE, u64::from(found)))
        }
    }

    /// Whether program p waits, in state 3 or in state 5. Only then may the mark stand.
    pub(crate) fn waits(&self, p: usize) -> bool {
        matches!(self.programs[&p].state, GENERAL_WAIT | DISC)
    }

    /// A used record. Every number that the engine keeps is that of a used record.
    pub(crate) fn program(&mut self, p: usize) -> &mut Program {
        self.programs.get_mut(&p).expect("a kept program number is that of a used record")
    }

    /// Program p leaves its chain, if it is in one, and enters that of the given state, behind its
    /// equals.
    pub(crate) fn enter(&mut self, p: usize, state: u8, why: Why) {
        self.entries += 1;
        let entry = self.entries;
        let program = self.program(p);
        program.state = state;
        program.why = why;
        program.entry = entry;
    }
}

/// "a letter A-Z, then letters or digits, blanks at the end; capitals only"
pub fn legal_name(name: Name) -> bool {
    let length = name.iter().take_while(|b| **b != b' ').count();
    let (front, blanks) = name.split_at(length);
    legal_front(front) && blanks.iter().all(|b| *b == b' ')
}

/// The part of a legal name before its blanks.
pub fn legal_front(front: &[u8]) -> bool {
    match front.split_first() {
        Some((first, rest)) => {
            front.len() <= 5
                && first.is_ascii_uppercase()
                && rest.iter().all(|b| b.is_ascii_uppercase() || b.is_ascii_digit())
        }
        None => false,
    }
}

/// A name as it is shown, without its blanks.
pub fn shown_name(name: Name) -> String {
    name.iter().filter(|b| **b != b' ').map(|b| *b as char).collect()
}
