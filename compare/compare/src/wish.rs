//! Lines that mean something in the present state of the tables.

use crate::claims::{self, Wanted};
use crate::prng::Prng;
use crate::profile::{Profile, Topic};
use crate::years;
use engine::tables::{shown_name, DISC, DORMANT, GENERAL_WAIT, SCHEDULED, SUSPENDED};
use engine::{Engine, Holder, Program};

const ANY: [u8; 5] = [DORMANT, SCHEDULED, GENERAL_WAIT, DISC, SUSPENDED];
const IN_CHAIN: [u8; 4] = [SCHEDULED, GENERAL_WAIT, DISC, SUSPENDED];
const WAITING: [u8; 2] = [GENERAL_WAIT, DISC];

/// By which a program may get to run; of ticks, one or many, each is half of what the others are.
const STARTING: [Topic; 10] = [
    Topic::Run,
    Topic::Run,
    Topic::Run,
    Topic::Run,
    Topic::Go,
    Topic::Go,
    Topic::Off,
    Topic::Off,
    Topic::Tick,
    Topic::Ticks,
];

/// Needs a program that runs: without one the line is only answered with 2.
fn needs_caller(topic: Topic) -> bool {
    use Topic::*;
    matches!(
        topic,
        Claim
            | GiveBack
            | GiveAll
            | End
            | Pause
            | Son
            | Start
            | Time
            | Timer
            | Alloc
            | Lock
            | Clear
            | Free
    )
}

/// Whether a line of this topic finds something to act on.
pub fn useful(engine: &Engine, topic: Topic) -> bool {
    use Topic::*;
    let any_in = |state: u8| engine.programs.values().any(|program| program.state == state);
    match topic {
        Load => engine.programs.len() < 3 || engine.programs.len() % 4 != 0,
        Run | Son | Start => any_in(DORMANT),
        Suspend => [SCHEDULED, GENERAL_WAIT, DISC].into_iter().any(any_in),
        Go => any_in(SUSPENDED),
        Priority | Off => engine.programs.len() > 2,
        Tick | Ticks => engine.programs.values().any(|program| program.timer.is_some()),
        GiveBack => engine.tracks.iter().any(|h| !matches!(h, Holder::Free | Holder::System)),
        Lock | Free => engine.numbers.iter().any(|number| number.owner != Holder::Free),
        Clear => engine.numbers.iter().any(|number| number.lock.is_some()),
        _ => true,
    }
}

/// A line of this topic. Where no program runs, one is mostly got to run in its stead.
pub fn line(prng: &mut Prng, profile: &Profile, engine: &Engine, topic: Topic) -> String {
    if needs_caller(topic) && engine.caller().is_err() && prng.chance(7, 8) {
        let topic = prng.pick(&STARTING);
        return operator(prng, profile, engine, topic);
    }
    if needs_caller(topic) {
        running(prng, profile, engine, topic)
    } else {
        operator(prng, profile, engine, topic)
    }
}

fn operator(prng: &mut Prng, profile: &Profile, engine: &Engine, topic: Topic) -> String {
    let mut named = |states: &[u8]| name(prng, profile, engine, states);
    match topic {
        Topic::Load => load(prng, profile, engine),
        Topic::Run => {
            let dormant = named(&[DORMANT]);
            // Nothing to run: load something first.
            if engine.chain(DORMANT).is_empty() && prng.chance(1, 2) {
                return load(prng, profile, engine);
            }
            format!("RU,{}", dormant)
        }
        Topic::Suspend => format!("SS,{}", to_suspend(prng, profile, engine)),
        Topic::Go => format!("GO,{}", marked_or(prng, profile, engine, &[SUSPENDED])),
        Topic::Priority => priority(prng, profile, engine),
        Topic::Off => {
            let states: &[u8] = if prng.chance(1, 6) { &ANY } else { &IN_CHAIN };
            let how = prng.pick(&[1, 8]);
            format!("OF,{},{}", marked_or(prng, profile, engine, states), how)
        }
        Topic::Fresh => years::fresh(prng),
        Topic::Page => String::from("PAGE"),
        Topic::Ticks => format!("TICK,{}", claims::ticks(prng, engine)),
        _ => String::from("TICK"),
    }
}

fn running(prng: &mut Prng, profile: &Profile, engine: &Engine, topic: Topic) -> String {
    let w = claims::w(prng);
    match topic {
        Topic::Claim => {
            let exec = prng.pick(&[4, 4, 4, 15]);
            format!("EXEC,{},{},{}", exec, claims::count(prng, engine, profile.gaps), w)
        }
        Topic::GiveBack => give_back(prng, profile, engine),
        Topic::GiveAll => String::from("EXEC,5,ALL"),
        Topic::End => String::from("EXEC,6"),
        Topic::Pause => String::from("EXEC,7"),
        Topic::Son => format!("EXEC,9,{}", name(prng, profile, engine, &[DORMANT])),
        Topic::Start => format!("EXEC,10,{}", name(prng, profile, engine, &[DORMANT])),
        Topic::Timer => {
            let (resolution, multiple, offset) = claims::timer(prng, engine);
            let states: &[u8] = if prng.chance(1, 2) { &[DORMANT] } else { &ANY };
            let named = marked_or(prng, profile, engine, states);
            format!("EXEC,12,{},{},{},{}", named, resolution, multiple, offset)
        }
        Topic::Alloc => format!("RN,ALLOC,{},{}", prng.pick(&["L", "L", "L", "G"]), w),
        Topic::Lock => format!("RN,LOCK,{},{}", claims::resource(prng, engine, Wanted::Lock), w),
        Topic::Clear => format!("RN,CLEAR,{}", claims::resource(prng, engine, Wanted::Clear)),
        Topic::Free => format!("RN,FREE,{}", claims::resource(prng, engine, Wanted::Free)),
        _ => String::from("EXEC,11"),
    }
}

fn give_back(prng: &mut Prng, profile: &Profile, engine: &Engine) -> String {
    let own = engine.caller().map_or(Holder::Global, Holder::Program);
    if prng.chance(2, 3) {
        let (n, start) = claims::part(prng, engine, own, profile.gaps);
        format!("EXEC,5,{},{}", n, start)
    } else {
        let (n, start) = claims::part(prng, engine, Holder::Global, profile.gaps);
        format!("EXEC,16,{},{}", n, start)
    }
}

/// Mostly a name that is not in use.
fn load(prng: &mut Prng, profile: &Profile, engine: &Engine) -> String {
    let used: Vec<String> = engine.programs.values().map(|p| shown_name(p.name)).collect();
    let unused: Vec<String> =
        profile.names.iter().filter(|name| !used.contains(name)).cloned().collect();
    let all = unused.is_empty() || prng.chance(1, 12);
    let name = prng.pick(if all { &profile.names } else { &unused });
    format!("LOAD,{},{}", name, prng.pick(&profile.priorities))
}

/// Often the program that runs, often to the number it has: it goes behind its equals.
fn priority(prng: &mut Prng, profile: &Profile, engine: &Engine) -> String {
    let caller = engine.caller().ok().filter(|_| prng.chance(1, 3));
    let named = match caller {
        Some(p) => shown_name(engine.programs[&p].name),
        None => marked_or(prng, profile, engine, &IN_CHAIN),
    };
    let own = engine.programs.values().find(|program| shown_name(program.name) == named);
    let number = match own {
        Some(program) if prng.chance(1, 2) => program.priority,
        _ => prng.pick(&profile.priorities),
    };
    format!("PR,{},{}", named, number)
}

/// Who is to be suspended: one that is scheduled or waits, mostly; now and then one that is marked
/// already, is dormant, or is suspended.
fn to_suspend(prng: &mut Prng, profile: &Profile, engine: &Engine) -> String {
    let unmarked = |it: &Program| WAITING.contains(&it.state) && !it.suspend;
    match prng.below(10) {
        0..=2 => name(prng, profile, engine, &[SCHEDULED]),
        3..=7 if engine.programs.values().any(unmarked) => any_of(prng, profile, engine, unmarked),
        8 => marked_or(prng, profile, engine, &ANY),
        _ => name(prng, profile, engine, &ANY),
    }
}

/// Now and then one that waits and is marked, if there is one; else one in these states.
fn marked_or(prng: &mut Prng, profile: &Profile, engine: &Engine, states: &[u8]) -> String {
    let marked = engine.programs.values().any(|program| program.suspend);
    if marked && prng.chance(1, 5) {
        return any_of(prng, profile, engine, |program| program.suspend);
    }
    name(prng, profile, engine, states)
}

/// The name of a program in one of these states; now and then any name, used or not.
fn name(prng: &mut Prng, profile: &Profile, engine: &Engine, states: &[u8]) -> String {
    any_of(prng, profile, engine, |program| states.contains(&program.state))
}

/// The name of a program that is so; now and then any name, used or not.
fn any_of(
    prng: &mut Prng,
    profile: &Profile,
    engine: &Engine,
    so: impl Fn(&Program) -> bool,
) -> String {
    let fitting: Vec<String> = engine
        .programs
        .values()
        .filter(|program| so(program))
        .map(|program| shown_name(program.name))
        .collect();
    if fitting.is_empty() || prng.chance(1, 16) {
        return prng.pick(&profile.names);
    }
    prng.pick(&fitting)
}
