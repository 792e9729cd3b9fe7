//! The engine as a program that tests its tables before every line, as the library does. The test
//! is the one that is natural to the engine's own fields: each clause of 01, "Tables are sound
//! exactly when", that they can violate. They cannot violate four: an unused record is none at
//! all, a timer that is not there has no due, entries at T and above or above R are none, and
//! chains are sorted out afresh, so that their links cannot cross.

use engine::sheet::print_line;
use engine::tables::{
    legal_name, CEILING, CHAINS, DISC, DORMANT, EARLIEST_YEAR, FURTHEST, GENERAL_WAIT, LATEST_YEAR,
    LOWEST_PRIORITY, MOST_NUMBERS, MOST_TRACKS, RECORDS,
};
use engine::{Engine, Holder, Program, Why};

/// One bit for each program number.
#[derive(Clone, Copy)]
struct Set(u64);

impl Set {
    fn has(self, p: usize) -> bool {
        p <= RECORDS && self.0 >> p & 1 == 1
    }

    /// False where it is there already.
    fn add(&mut self, p: usize) -> bool {
        let new = !self.has(p);
        self.0 |= 1 << p;
        new
    }
}

pub fn sound(engine: &Engine) -> bool {
    let (mut used, mut running) = (Set(0), Set(0));
    for (p, program) in &engine.programs {
        if !(1..=RECORDS).contains(p) {
            return false;
        }
        used.add(*p);
        if program.state != DORMANT {
            running.add(*p);
        }
    }
    limits_hold(engine)
        && names_fit(engine)
        && programs_fit(engine, running)
        && tracks_fit(engine, used)
        && numbers_fit(engine, used)
}

fn limits_hold(engine: &Engine) -> bool {
    (1..=MOST_TRACKS).contains(&engine.t())
        && engine.system <= engine.t()
        && engine.r() <= MOST_NUMBERS
        && engine.clock <= CEILING
        && (EARLIEST_YEAR..=LATEST_YEAR).contains(&engine.year)
}

fn names_fit(engine: &Engine) -> bool {
    // Each name as one number, which is quicker to compare.
    let mut names = [0; RECORDS];
    for (place, program) in engine.programs.values().enumerate() {
        let name = program.name.iter().fold(0, |sum: u64, byte| sum << 8 | u64::from(*byte));
        if !legal_name(program.name) || names[..place].contains(&name) {
            return false;
        }
        names[place] = name;
    }
    true
}

fn programs_fit(engine: &Engine, running: Set) -> bool {
    let mut awaited = Set(0);
    engine.programs.iter().all(|(p, program)| {
        let once = match program.why {
            Why::Son(k) => running.has(k) && k != *p && awaited.add(k),
            _ => true,
        };
        once && program.priority <= LOWEST_PRIORITY
            && (program.state == DORMANT || CHAINS.contains(&program.state))
            && why_fits(engine, program)
            && mark_fits(program)
            && timer_fits(engine, program)
    })
}

/// The why of a state, and its number but for that of a son.
fn why_fits(engine: &Engine, program: &Program) -> bool {
    match program.why {
        Why::Nothing => program.state != GENERAL_WAIT && program.state != DISC,
        Why::Tracks(n) => program.state == DISC && (1..=engine.t()).contains(&n),
        Why::Lock(r) => program.state == GENERAL_WAIT && (1..=engine.numbers.len()).contains(&r),
        Why::Son(_) | Why::Number => program.state == GENERAL_WAIT,
    }
}

/// Request (ii).
fn mark_fits(program: &Program) -> bool {
    !program.suspend || program.state == GENERAL_WAIT || program.state == DISC
}

fn timer_fits(engine: &Engine, program: &Program) -> bool {
    program.timer.map_or(true, |timer| {
        // The clock is within its limit here.
        engine.clock < timer.due
            && timer.due <= engine.clock + FURTHEST
            && timer.interval <= FURTHEST
    })
}

fn tracks_fit(engine: &Engine, used: Set) -> bool {
    // S is at most T here.
    let (system, others) = engine.tracks.split_at(engine.system as usize);
    system.iter().all(|holder| *holder == Holder::System)
        && others.iter().all(|holder| match holder {
            Holder::Free | Holder::Global => true,
            Holder::Program(p) => used.has(*p),
            Holder::System => false,
        })
}

fn numbers_fit(engine: &Engine, used: Set) -> bool {
    engine.numbers.iter().all(|number| {
        let lock_fits = number.lock.map_or(true, |p| used.has(p));
        match number.owner {
            Holder::Free => number.lock.is_none(),
            Holder::Global => lock_fits,
            Holder::Program(p) => used.has(p) && lock_fits,
            Holder::System => false,
        }
    })
}

/// What is printed where the test fails.
const NOT_SOUND: &[u8] = b"answer=14,value=0\n";

/// The program `sheet` into a buffer, with the test before every line or without it. How many bytes
/// were put.
pub fn run(text: &[u8], out: &mut Vec<u8>, tested: bool) -> usize {
    let mut engine = Engine::smallest();
    out.clear();
    if text.is_empty() {
        return 0;
    }
    // What follows the last byte 10 is a line only if there is something.
    let lines = text.strip_suffix(b"\n").unwrap_or(text);
    for line in lines.split(|byte| *byte == b'\n') {
        if tested && !sound(&engine) {
            out.extend_from_slice(NOT_SOUND);
        } else {
            out.extend_from_slice(&print_line(&mut engine, line));
        }
    }
    out.len()
}
