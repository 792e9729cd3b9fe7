//! Pages in which one thing is another, and which are pages all the same: a figure mostly, or a
//! program, a run of tracks or a number more or fewer, or another start year.

use crate::prng::Prng;
use crate::twist::{bytes_of, lines_of, one_number};
use crate::years::allowed;
use engine::tables::{shown_name, FREE_NUMBER, USUAL_YEAR};
use engine::{read, Answer, Engine, Holder, Number, Timer};

/// Most changes leave a page; rarely are so many needed.
const TRIES: usize = 60;

/// The page of these tables with one thing changed, and the tables that write it then. None if no
/// change was found that leaves a page.
pub fn slip(prng: &mut Prng, engine: &Engine) -> Option<(Vec<u8>, Engine)> {
    let own = engine.page_bytes();
    for _ in 0..TRIES {
        let page = if prng.chance(3, 5) { figure(prng, &own) } else { structure(prng, engine) };
        let (raw, answer) = read(&page);
        if page != own && answer == Answer::new(0, 0) {
            return raw.engine().map(|engine| (page, engine));
        }
    }
    None
}

/// One number of the page is another.
fn figure(prng: &mut Prng, page: &[u8]) -> Vec<u8> {
    let mut lines = lines_of(page);
    one_number(prng, &mut lines);
    bytes_of(&lines)
}

/// The page after a change of the tables. Whether they are sound then is not asked here.
fn structure(prng: &mut Prng, engine: &Engine) -> Vec<u8> {
    let mut changed = engine.clone();
    match prng.below(9) {
        8 => changed.year = years(prng, engine.year),
        0 | 1 => programs(prng, &mut changed),
        2 | 3 => tracks(prng, &mut changed),
        4 => numbers(prng, &mut changed),
        5 => equals(prng, &mut changed),
        6 => marks(prng, &mut changed),
        _ => timers(prng, &mut changed),
    }
    changed.page_bytes()
}

/// The number of any program; 0 if there is none.
fn anybody(prng: &mut Prng, engine: &Engine) -> usize {
    let all: Vec<usize> = engine.programs.keys().copied().collect();
    if all.is_empty() {
        0
    } else {
        prng.pick(&all)
    }
}

fn holder(prng: &mut Prng, engine: &Engine) -> Holder {
    match anybody(prng, engine) {
        0 => Holder::Global,
        p => prng.pick(&[Holder::Global, Holder::Program(p), Holder::Program(p)]),
    }
}

/// One more, one fewer, or one in another state.
fn programs(prng: &mut Prng, engine: &mut Engine) {
    let p = anybody(prng, engine);
    let name = engine.programs.get(&p).map_or(String::from("A"), |it| shown_name(it.name));
    let line = match prng.below(4) {
        0 | 1 => format!("OF,{},8", name),
        2 => format!("LOAD,NEWLY,{}", prng.below(100)),
        _ => format!("{},{}", prng.pick(&["RU", "SS", "GO"]), name),
    };
    engine.line(line.as_bytes(), &mut []);
}

/// A track, or the run of one holder that it is in, is another's, or free.
fn tracks(prng: &mut Prng, engine: &mut Engine) {
    let track = prng.below(engine.t()) as usize;
    let old = engine.tracks[track];
    let other = holder(prng, engine);
    let new = prng.pick(&[Holder::Free, Holder::Free, other]);
    let run = prng.chance(1, 2);
    let same = |track: &usize| run && engine.tracks[*track] == old;
    let behind = (track + 1..engine.tracks.len()).take_while(same).count();
    let before = (0..track).rev().take_while(same).count();
    engine.tracks[track - before..=track + behind].fill(new);
}

/// A number is allocated, is free, or has another lock.
fn numbers(prng: &mut Prng, engine: &mut Engine) {
    let r = prng.below(engine.r()) as usize;
    let (owner, p) = (holder(prng, engine), anybody(prng, engine));
    let lock = Some(p).filter(|p| *p > 0 && prng.chance(1, 2));
    if let Some(number) = engine.numbers.get_mut(r) {
        *number = prng.pick(&[FREE_NUMBER, Number { owner, lock }]);
    }
}

/// Two programs change places in a chain, if they are equals.
fn equals(prng: &mut Prng, engine: &mut Engine) {
    let (one, two) = (anybody(prng, engine), anybody(prng, engine));
    let entry = |p: usize| engine.programs.get(&p).map_or(0, |program| program.entry);
    let entries = [(one, entry(two)), (two, entry(one))];
    for (p, entry) in entries {
        if let Some(program) = engine.programs.get_mut(&p) {
            program.entry = entry;
        }
    }
}

/// A mark is there, gone, or at another program that waits. The last shows as no line of its own:
/// all lines of marks are alike.
fn marks(prng: &mut Prng, engine: &mut Engine) {
    let of_mark = |marked: bool| {
        let waiting = engine.programs.iter().filter(|(_, it)| [3, 5].contains(&it.state));
        waiting.filter(|(_, it)| it.suspend == marked).map(|(p, _)| *p).collect::<Vec<usize>>()
    };
    let (marked, unmarked) = (of_mark(true), of_mark(false));
    let mut changed = Vec::new();
    if !marked.is_empty() && prng.chance(3, 4) {
        changed.push(prng.pick(&marked));
    }
    if !unmarked.is_empty() && (changed.is_empty() || prng.chance(1, 2)) {
        changed.push(prng.pick(&unmarked));
    }
    for p in changed {
        if let Some(program) = engine.programs.get_mut(&p) {
            program.suspend = !program.suspend;
        }
    }
}

/// Another start year, often the usual one, which has no line, or the next.
fn years(prng: &mut Prng, old: u64) -> u64 {
    let any = allowed(prng);
    prng.pick(&[USUAL_YEAR, old + 1, old - 1, any])
}

/// A timer is there, or gone.
fn timers(prng: &mut Prng, engine: &mut Engine) {
    let p = anybody(prng, engine);
    let due = engine.clock + prng.between(1, 10_000);
    if let Some(program) = engine.programs.get_mut(&p) {
        let new = Timer { due, interval: prng.pick(&[0, 0, 1, 6_000]) };
        program.timer = if program.timer.is_some() { None } else { Some(new) };
    }
}
