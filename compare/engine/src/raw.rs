//! The tables as a caller could hand them in: plain fields that can hold anything, links among
//! them. `sound` says which of them are tables; those alone turn into an engine and back.

use crate::answer::{self, Answer, Outcome};
use crate::tables::{Engine, Holder, Name, Number, Program, Timer, Why, CHAINS, RECORDS};

/// As `Why`, with any number in it.
#[derive(Clone, Copy, Debug, PartialEq, Eq)]
pub enum RawWhy {
    Nothing,
    Tracks(u64),
    Son(u64),
    Lock(u64),
    Number,
}

#[derive(Clone, Copy, Debug, PartialEq, Eq)]
pub struct RawRecord {
    pub used: bool,
    pub name: Name,
    pub priority: u64,
    pub state: u64,
    pub why: RawWhy,
    /// 0 without a timer: a due is above the clock, so it is never 0.
    pub due: u64,
    pub interval: u64,
    pub suspend: bool,
}

/// An unused record holds zeros.
pub const UNUSED: RawRecord = RawRecord {
    used: false,
    name: [0; 5],
    priority: 0,
    state: 0,
    why: RawWhy::Nothing,
    due: 0,
    interval: 0,
    suspend: false,
};

/// 0 is free, 1 to 32 a program.
pub const GLOBAL: u8 = 33;
pub const SYSTEM: u8 = 34;

#[derive(Clone, Copy, Debug, PartialEq, Eq)]
pub struct RawNumber {
    /// 0 free, 1 to 32 a program, 33 global
    pub owner: u8,
    /// 0 clear, 1 to 32 a program
    pub lock: u8,
}

pub const BLANK_NUMBER: RawNumber = RawNumber { owner: 0, lock: 0 };

/// Slot s, 0 to 6, heads the chain of state s; slot `LINKS` + p is the link of program p; 0 ends a
/// chain. Slots 0, 2, 4 and 7 have no use.
pub const LINKS: usize = 7;
pub const SLOTS: usize = LINKS + RECORDS + 1;

#[derive(Clone, Debug, PartialEq, Eq)]
pub struct Raw {
    /// Program p is at place p - 1.
    pub records: [RawRecord; RECORDS],
    pub clock: u64,
    pub year: u64,
    pub t: u64,
    pub s: u64,
    pub r: u64,
    pub tracks: [u8; 256],
    pub numbers: [RawNumber; 16],
    pub links: [u8; SLOTS],
}

impl Raw {
    /// The tables of an engine.
    pub fn of(engine: &Engine) -> Raw {
        let mut raw = Raw {
            records: [UNUSED; RECORDS],
            clock: engine.clock,
            year: engine.year,
            t: engine.t(),
            s: engine.system,
            r: engine.r(),
            tracks: [0; 256],
            numbers: [BLANK_NUMBER; 16],
            links: [0; SLOTS],
        };
        for (p, program) in &engine.programs {
            raw.records[p - 1] = raw_record(program);
        }
        for (place, holder) in engine.tracks.iter().enumerate() {
            raw.tracks[place] = raw_holder(*holder);
        }
        for (place, number) in engine.numbers.iter().enumerate() {
            let lock = number.lock.map_or(0, |p| p as u8);
            raw.numbers[place] = RawNumber { owner: raw_holder(number.owner), lock };
        }
        for state in CHAINS {
            raw.link_chain(state, &engine.chain(state));
        }
        raw
    }

    fn link_chain(&mut self, state: u8, chain: &[usize]) {
        let mut slot = usize::from(state);
        for p in chain {
            self.links[slot] = *p as u8;
            slot = LINKS + p;
        }
    }

    /// The engine with these tables, if they are sound. Entries are numbered in chain order.
    pub fn engine(&self) -> Option<Engine> {
        if !self.sound() {
            return None;
        }
        let (mut engine, _) = Engine::fresh(self.t, self.s, self.r, self.year);
        engine.clock = self.clock;
        for (place, record) in self.records.iter().enumerate() {
            if record.used {
                engine.programs.insert(place + 1, program(record));
            }
        }
        for (place, holder) in engine.tracks.iter_mut().enumerate() {
            *holder = holder_of(self.tracks[place]);
        }
        for (place, number) in engine.numbers.iter_mut().enumerate() {
            *number = number_of(self.numbers[place]);
        }
        for state in CHAINS {
            for p in self.walk(usize::from(state)) {
                engine.entries += 1;
                let entry = engine.entries;
                engine.program(p).entry = entry;
            }
        }
        Some(engine)
    }

    /// The members that the links give for a chain, as far as they lead. It ends on any links:
    /// at 0, at a number that is no program's, or after more steps than there are programs.
    pub fn walk(&self, state: usize) -> Vec<usize> {
        let mut members = Vec::new();
        let mut next = usize::from(self.links[state]);
        while (1..=RECORDS).contains(&next) && members.len() <= RECORDS {
            members.push(next);
            next = usize::from(self.links[LINKS + next]);
        }
        members
    }

    /// A call on these tables: 14 with the same tables if they are not sound, else what the engine
    /// answers, with the tables after it.
    pub fn call(&self, call: impl FnOnce(&mut Engine) -> Outcome) -> (Raw, Answer) {
        match self.engine() {
            None => (self.clone(), Answer::new(answer::NOT_SOUND, 0)),
            Some(mut engine) => {
                let answer = Answer::of(call(&mut engine));
                (Raw::of(&engine), answer)
            }
        }
    }

    /// A console line on these tables. 14 comes before 13, and before an accepted FRESH.
    pub fn line(&self, line: &[u8], buffer: &mut [u8]) -> (Raw, Answer) {
        self.call(|engine| Ok(engine.line(line, buffer)))
    }
}

fn raw_record(program: &Program) -> RawRecord {
    let why = match program.why {
        Why::Nothing => RawWhy::Nothing,
        Why::Tracks(n) => RawWhy::Tracks(n),
        Why::Son(k) => RawWhy::Son(k as u64),
        Why::Lock(r) => RawWhy::Lock(r as u64),
        Why::Number => RawWhy::Number,
    };
    RawRecord {
        used: true,
        name: program.name,
        priority: program.priority,
        state: u64::from(program.state),
        why,
        due: program.timer.map_or(0, |timer| timer.due),
        interval: program.timer.map_or(0, |timer| timer.interval),
        suspend: program.suspend,
    }
}

/// Only for a record of sound tables, whose numbers fit.
fn program(record: &RawRecord) -> Program {
    let why = match record.why {
        RawWhy::Nothing => Why::Nothing,
        RawWhy::Tracks(n) => Why::Tracks(n),
        RawWhy::Son(k) => Why::Son(k as usize),
        RawWhy::Lock(r) => Why::Lock(r as usize),
        RawWhy::Number => Why::Number,
    };
    let timer = Timer { due: record.due, interval: record.interval };
    Program {
        name: record.name,
        priority: record.priority,
        state: record.state as u8,
        why,
        timer: if record.due == 0 { None } else { Some(timer) },
        suspend: record.suspend,
        entry: 0,
    }
}

fn raw_holder(holder: Holder) -> u8 {
    match holder {
        Holder::Free => 0,
        Holder::Program(p) => p as u8,
        Holder::Global => GLOBAL,
        Holder::System => SYSTEM,
    }
}

fn holder_of(raw: u8) -> Holder {
    match raw {
        0 => Holder::Free,
        GLOBAL => Holder::Global,
        SYSTEM => Holder::System,
        p => Holder::Program(usize::from(p)),
    }
}

fn number_of(raw: RawNumber) -> Number {
    let lock = if raw.lock == 0 { None } else { Some(usize::from(raw.lock)) };
    Number { owner: holder_of(raw.owner), lock }
}
