// Tables put by hand, and a call on each, on which a wrong engine shows that no console line from
// FRESH shows. Put into a module in which `tried` is the engine that is tried.

use tried::raw::{Raw, RawRecord, RawWhy, GLOBAL, LINKS, UNUSED};
use tried::{Answer, Engine, Outcome};

type Call = fn(&mut Engine) -> Outcome;

/// A runs (1), B and C wait for the lock of number 1 (2, 3), D is suspended (4), all equals.
fn tables() -> Raw {
    let (engine, _) = Engine::fresh(4, 0, 2, 1975);
    let mut raw = Raw::of(&engine);
    let states = [(1, RawWhy::Nothing), (3, RawWhy::Lock(1)), (3, RawWhy::Lock(1))];
    for (place, (state, why)) in states.into_iter().chain([(6, RawWhy::Nothing)]).enumerate() {
        let name = [b'A' + place as u8, b' ', b' ', b' ', b' '];
        raw.records[place] = RawRecord { used: true, name, priority: 10, state, why, ..UNUSED };
    }
    raw.links[1] = 1;
    raw.links[3] = 2;
    raw.links[LINKS + 2] = 3;
    raw.links[6] = 4;
    raw.numbers[0].owner = GLOBAL;
    assert!(raw.sound());
    raw
}

fn changed(change: impl FnOnce(&mut Raw)) -> Raw {
    let mut raw = tables();
    change(&mut raw);
    raw
}

/// The tables and the call for each of these wrong engines, with the answer number that is right.
fn case(fault: &str) -> (Raw, Call, u64) {
    match fault {
        "sum-in-64-bits" => (tables(), |engine| engine.exec5(u64::MAX, 2), 3),
        "clear-already-wakes" => (tables(), |engine| engine.clear(1), 0),
        "unlocked-wakes-none" => (tables(), |engine| engine.free(1), 0),
        "cycle-sound" => (changed(|raw| raw.links[LINKS + 3] = 2), |engine| engine.exec6(), 14),
        "cycle-followed" => (changed(|raw| raw.links[LINKS + 1] = 1), |engine| engine.tick(), 14),
        "crossed-sound" => (changed(|raw| raw.links[LINKS + 1] = 2), |engine| engine.exec7(), 14),
        "mark-sound-unused" => (changed(|raw| raw.records[9].suspend = true), |engine| engine.tick(), 14),
        _ => panic!("no tables for {}", fault),
    }
}

/// The tables after the call and its answer, with the answer number that is right.
pub fn called(fault: &str) -> ((Raw, Answer), u64) {
    let (raw, call, number) = case(fault);
    (raw.call(call), number)
}
