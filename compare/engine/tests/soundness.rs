//! When tables are sound: every clause of the outline's paragraph, by damaging sound tables in one
//! place.

use engine::raw::{Raw, RawRecord, RawWhy, GLOBAL, LINKS, SLOTS, SYSTEM, UNUSED};
use engine::Engine;

fn record(name: &[u8; 5], priority: u64, state: u64, why: RawWhy) -> RawRecord {
    RawRecord { used: true, name: *name, priority, state, why, ..UNUSED }
}

/// Programs 1 to 9: A waits for son B, B, C and D are scheduled, E waits for tracks, F for a lock,
/// G for any number, H is suspended, I is dormant with a timer. T=8, S=2, R=3.
fn sound_tables() -> Raw {
    let (engine, _) = Engine::fresh(8, 2, 3, 1975);
    let mut raw = Raw::of(&engine);
    raw.clock = 100;
    raw.records[0] = record(b"A    ", 10, 3, RawWhy::Son(2));
    raw.records[1] = record(b"B    ", 10, 1, RawWhy::Nothing);
    raw.records[2] = record(b"C1   ", 10, 1, RawWhy::Nothing);
    raw.records[3] = record(b"D    ", 5, 1, RawWhy::Nothing);
    raw.records[4] = record(b"E    ", 10, 5, RawWhy::Tracks(8));
    raw.records[5] = record(b"F    ", 10, 3, RawWhy::Lock(3));
    raw.records[6] = record(b"G    ", 11, 3, RawWhy::Number);
    raw.records[7] = record(b"H    ", 0, 6, RawWhy::Nothing);
    raw.records[8] = record(b"ABCD9", 32_767, 0, RawWhy::Nothing);
    raw.records[8].due = 101;
    raw.records[8].interval = 7;
    link(&mut raw, 1, &[4, 3, 2]);
    link(&mut raw, 3, &[6, 1, 7]);
    link(&mut raw, 5, &[5]);
    link(&mut raw, 6, &[8]);
    raw.tracks[2] = 9;
    raw.tracks[4] = GLOBAL;
    raw.numbers[0].owner = 4;
    raw.numbers[0].lock = 9;
    raw.numbers[1].owner = GLOBAL;
    raw
}

fn link(raw: &mut Raw, state: usize, chain: &[u8]) {
    let mut slot = state;
    for p in chain {
        raw.links[slot] = *p;
        slot = LINKS + usize::from(*p);
    }
    raw.links[slot] = 0;
}

fn after(damage: impl FnOnce(&mut Raw)) -> bool {
    let mut raw = sound_tables();
    damage(&mut raw);
    let sound = raw.sound();
    // Unsound tables are refused with 14 and come back as they were, whatever the line.
    if !sound {
        for line in ["FRESH,1,0,0", "PAGE", "TICK", "nonsense"] {
            let mut buffer = [7; 16];
            let (same, answer) = raw.line(line.as_bytes(), &mut buffer);
            assert_eq!((same == raw, answer, buffer), (true, engine::Answer::new(14, 0), [7; 16]));
        }
    }
    sound
}

#[test]
fn undamaged() {
    assert!(sound_tables().sound());
    assert!(Raw::of(&Engine::smallest()).sound());
    for p in 10..=32 {
        // Any other free record may take a program.
        assert!(after(|raw| raw.records[p - 1] = record(b"NEW  ", 1, 0, RawWhy::Nothing)));
    }
}

#[test]
fn limits() {
    assert!(!after(|raw| raw.t = 0));
    assert!(!after(|raw| raw.t = 257));
    assert!(!after(|raw| raw.t = u64::MAX));
    assert!(!after(|raw| raw.s = 9));
    assert!(!after(|raw| raw.s = u64::MAX));
    assert!(!after(|raw| raw.r = 17));
    assert!(!after(|raw| raw.r = u64::MAX));
    assert!(!after(|raw| raw.records[8].priority = 32_768));
    assert!(!after(|raw| raw.records[8].priority = u64::MAX));
    for state in [2, 4, 7, 256, 257, u64::MAX] {
        assert!(!after(|raw| raw.records[8].state = state));
    }
}

#[test]
fn names() {
    for name in
        [b"     ", b"\0\0\0\0\0", b"A\0\0\0\0", b" A   ", b"A B  ", b"a    ", b"1    ", b"A-   "]
    {
        assert!(!after(|raw| raw.records[8].name = *name));
    }
    assert!(!after(|raw| raw.records[8].name = *b"C1   "));
    assert!(after(|raw| raw.records[8].name = *b"C1Z  "));
}

#[test]
fn unused_records() {
    assert!(!after(|raw| raw.records[20].name = *b"A    "));
    assert!(!after(|raw| raw.records[20].name = *b"     "));
    assert!(!after(|raw| raw.records[20].priority = 1));
    assert!(!after(|raw| raw.records[20].state = 1));
    assert!(!after(|raw| raw.records[20].why = RawWhy::Number));
    assert!(!after(|raw| raw.records[20].due = 101));
    assert!(!after(|raw| raw.records[20].interval = 1));
    assert!(!after(|raw| raw.records[20].suspend = true));
    assert!(!after(|raw| raw.links[LINKS + 21] = 1));
    // A used record that others name cannot simply go.
    assert!(!after(|raw| raw.records[8] = UNUSED));
}

#[test]
fn timers() {
    let furthest = 1_474_200_000;
    assert!(!after(|raw| raw.records[8].due = 100));
    assert!(!after(|raw| raw.records[8].due = 1));
    assert!(!after(|raw| raw.records[8].due = 101 + furthest));
    assert!(!after(|raw| raw.records[8].due = u64::MAX));
    assert!(after(|raw| raw.records[8].due = 100 + furthest));
    assert!(!after(|raw| raw.records[8].due = 0));
    assert!(!after(|raw| raw.records[8].interval = furthest + 1));
    assert!(after(|raw| raw.records[8].interval = furthest));
    assert!(after(|raw| raw.records[8].interval = 0));
    assert!(!after(|raw| raw.records[0].interval = 1));
    assert!(after(|raw| raw.records[0].due = 200));
    let ceiling = 1_000_000_000_000;
    let at = |clock: u64, due: u64| {
        after(|raw| {
            raw.clock = clock;
            raw.records[8].due = due;
        })
    };
    assert!(at(ceiling, ceiling + furthest));
    assert!(!at(ceiling, ceiling));
    assert!(!at(ceiling + 1, ceiling + 2));
    assert!(!at(u64::MAX, u64::MAX));
    assert!(!at(u64::MAX, 0));
}

#[test]
fn chains() {
    // cyclic, crossed, cut short, wild
    assert!(!after(|raw| raw.links[LINKS + 2] = 2));
    assert!(!after(|raw| raw.links[LINKS + 2] = 4));
    assert!(!after(|raw| raw.links[LINKS + 2] = 3));
    assert!(!after(|raw| raw.links[LINKS + 2] = 6));
    assert!(!after(|raw| raw.links[LINKS + 7] = 2));
    assert!(!after(|raw| raw.links[LINKS + 3] = 0));
    assert!(!after(|raw| raw.links[1] = 0));
    assert!(!after(|raw| raw.links[1] = 3));
    assert!(!after(|raw| raw.links[1] = 6));
    assert!(!after(|raw| raw.links[1] = 33));
    assert!(!after(|raw| raw.links[1] = 255));
    assert!(!after(|raw| raw.links[LINKS + 2] = 20));
    assert!(!after(|raw| raw.links[LINKS + 2] = 9));
    assert!(!after(|raw| raw.links[LINKS + 9] = 9));
    assert!(!after(|raw| raw.links[LINKS + 9] = 1));
    assert!(!after(|raw| raw.links.swap(1, 3)));
    for slot in [0, 2, 4, LINKS] {
        assert!(!after(|raw| raw.links[slot] = 1));
        assert!(!after(|raw| raw.links[slot] = 9));
    }
    // Equals in any order, but priorities never fall.
    assert!(after(|raw| link(raw, 1, &[4, 2, 3])));
    assert!(!after(|raw| link(raw, 1, &[2, 4, 3])));
    assert!(!after(|raw| raw.records[3].priority = 11));
    // A program whose state says another chain.
    assert!(!after(|raw| raw.records[7].state = 1));
    assert!(!after(|raw| raw.records[8].state = 1));
    assert!(!after(|raw| raw.records[2].state = 0));
}

#[test]
fn whys() {
    for place in [1, 2, 3, 7, 8] {
        for why in [RawWhy::Tracks(1), RawWhy::Son(4), RawWhy::Lock(1), RawWhy::Number] {
            assert!(!after(|raw| raw.records[place].why = why));
        }
    }
    let waits = |place: usize, why: RawWhy| after(|raw| raw.records[place].why = why);
    for why in [RawWhy::Nothing, RawWhy::Tracks(0), RawWhy::Tracks(9), RawWhy::Tracks(u64::MAX)] {
        assert!(!waits(4, why));
    }
    for why in [RawWhy::Son(3), RawWhy::Lock(1), RawWhy::Number] {
        assert!(!waits(4, why));
    }
    assert!(waits(4, RawWhy::Tracks(1)));
    for why in [RawWhy::Nothing, RawWhy::Tracks(1), RawWhy::Lock(0), RawWhy::Lock(4)] {
        assert!(!waits(5, why));
    }
    assert!(!waits(5, RawWhy::Lock(u64::MAX)));
    // Free, clear or locked by whom it may be: any number 1 to R can be waited for.
    for r in 1..=3 {
        assert!(waits(5, RawWhy::Lock(r)));
    }
    // The waiter, an unused or dormant program, no program, a son of two fathers.
    for son in [0, 6, 9, 10, 33, 256, 258, u64::MAX, 2] {
        assert!(!waits(5, RawWhy::Son(son)));
    }
    assert!(waits(5, RawWhy::Son(3)));
    // Two that wait for each other.
    assert!(after(|raw| {
        raw.records[0].why = RawWhy::Son(6);
        raw.records[5].why = RawWhy::Son(1);
    }));
}

/// The mark stands in states 3 and 5 alone, whatever the why.
#[test]
fn marks() {
    let marked = |place: usize| after(|raw| raw.records[place].suspend = true);
    // A, F and G wait in chain 3, E in chain 5.
    for place in [0, 4, 5, 6] {
        assert!(marked(place));
    }
    // B, C and D are scheduled, H is suspended, ABCD9 is dormant, the others are not used.
    for place in [1, 2, 3, 7, 8, 9, 20, 31] {
        assert!(!marked(place));
    }
    assert!(after(|raw| [0, 4, 5, 6].iter().for_each(|p| raw.records[*p].suspend = true)));
    assert!(!after(|raw| [0, 4, 5, 7].iter().for_each(|p| raw.records[*p].suspend = true)));
}

#[test]
fn tracks() {
    assert!(!after(|raw| raw.tracks[0] = 0));
    assert!(!after(|raw| raw.tracks[1] = 4));
    assert!(!after(|raw| raw.tracks[2] = SYSTEM));
    assert!(!after(|raw| raw.s = 1));
    assert!(!after(|raw| raw.s = 3));
    for holder in [10, 32, 35, 255] {
        assert!(!after(|raw| raw.tracks[7] = holder));
    }
    for holder in [0, 1, 9, GLOBAL] {
        assert!(after(|raw| raw.tracks[7] = holder));
    }
    for holder in [1, GLOBAL, SYSTEM, 255] {
        assert!(!after(|raw| raw.tracks[8] = holder));
        assert!(!after(|raw| raw.tracks[255] = holder));
    }
}

#[test]
fn numbers() {
    assert!(!after(|raw| raw.numbers[2].lock = 1));
    for owner in [10, 32, SYSTEM, 255] {
        assert!(!after(|raw| raw.numbers[2].owner = owner));
    }
    for owner in [1, 9, GLOBAL] {
        assert!(after(|raw| raw.numbers[2].owner = owner));
        assert!(!after(|raw| raw.numbers[3].owner = owner));
        assert!(!after(|raw| raw.numbers[15].owner = owner));
    }
    for lock in [10, 32, GLOBAL, 255] {
        assert!(!after(|raw| raw.numbers[1].lock = lock));
    }
    assert!(after(|raw| raw.numbers[1].lock = 9));
    assert!(!after(|raw| raw.numbers[9].lock = 1));
    assert!(!after(|raw| raw.r = 1));
    // F waits for the lock of number 3.
    assert!(!after(|raw| raw.r = 2));
}

#[test]
fn limits_reached() {
    for (t, s, r) in [(1, 0, 0), (1, 1, 0), (4, 4, 1), (256, 0, 16), (256, 255, 0), (256, 256, 16)]
    {
        let (engine, _) = Engine::fresh(t, s, r, 1975);
        assert!(Raw::of(&engine).sound(), "FRESH,{},{},{}", t, s, r);
    }
    // No track at all, and nothing else wrong.
    let mut raw = Raw::of(&Engine::smallest());
    raw.t = 0;
    assert!(!raw.sound());
}

/// Two programs: p, and another that is scheduled.
fn beside(p: usize, state: u64, why: RawWhy) -> Raw {
    let (engine, _) = Engine::fresh(4, 0, 1, 1975);
    let mut raw = Raw::of(&engine);
    let other = p % 32 + 1;
    raw.records[other - 1] = record(b"A    ", 10, 1, RawWhy::Nothing);
    raw.links[1] = other as u8;
    raw.records[p - 1] = record(b"B    ", 10, state, why);
    if state > 1 {
        raw.links[state as usize] = p as u8;
    }
    raw
}

/// Each clause holds for the first record and for the last as for all others.
#[test]
fn every_record() {
    for p in 1..=32 {
        let other = p % 32 + 1;
        let third = (p + 1) % 32 + 1;
        assert!(beside(p, 0, RawWhy::Nothing).sound());
        assert!(beside(p, 3, RawWhy::Son(other as u64)).sound());
        for (state, why) in [(3, RawWhy::Number), (5, RawWhy::Tracks(1)), (0, RawWhy::Nothing)] {
            let mut marked = beside(p, state, why);
            marked.records[p - 1].suspend = true;
            assert_eq!(marked.sound(), state != 0);
            marked.records[other - 1].suspend = true;
            assert!(!marked.sound());
        }
        assert!(!beside(p, 0, RawWhy::Number).sound());
        let mut linked = beside(p, 0, RawWhy::Nothing);
        linked.links[LINKS + p] = other as u8;
        assert!(!linked.sound());
        let mut unlinked = beside(p, 6, RawWhy::Nothing);
        assert!(unlinked.sound());
        unlinked.links[6] = 0;
        assert!(!unlinked.sound());
        // Behind its equal and before it, there and back.
        for chain in [[other as u8, p as u8], [p as u8, other as u8]] {
            let mut two = beside(p, 1, RawWhy::Nothing);
            link(&mut two, 1, &chain);
            let engine = two.engine().expect("sound tables");
            assert_eq!(engine.chain(1), chain.map(usize::from));
            assert_eq!(Raw::of(&engine), two);
            // Its father waits in chain 3, and then another as well.
            two.records[third - 1] = record(b"C    ", 10, 3, RawWhy::Son(p as u64));
            link(&mut two, 3, &[third as u8]);
            assert!(two.sound());
            let fourth = (p + 2) % 32 + 1;
            two.records[fourth - 1] = record(b"D    ", 10, 3, RawWhy::Number);
            link(&mut two, 3, &[third as u8, fourth as u8]);
            assert!(two.sound());
            two.records[fourth - 1].why = RawWhy::Son(p as u64);
            assert!(!two.sound());
        }
    }
}

/// A timer that is due at the first tick, and none.
#[test]
fn timers_there_and_back() {
    let mut raw = beside(1, 0, RawWhy::Nothing);
    raw.records[0].due = 1;
    let engine = raw.engine().expect("sound tables");
    assert_eq!(Raw::of(&engine), raw);
    assert_eq!(engine.programs[&1].timer.map(|timer| (timer.due, timer.interval)), Some((1, 0)));
    assert_eq!(engine.programs[&2].timer, None);
}

/// The numbers of the raw form, which others write and read as well.
#[test]
fn the_raw_form() {
    let zeros = RawRecord {
        used: false,
        name: [0; 5],
        priority: 0,
        state: 0,
        why: RawWhy::Nothing,
        due: 0,
        interval: 0,
        suspend: false,
    };
    assert_eq!(UNUSED, zeros);
    assert_eq!((GLOBAL, SYSTEM, LINKS, SLOTS), (33, 34, 7, 40));
}

#[test]
fn round_trip() {
    let raw = sound_tables();
    let engine = raw.engine().expect("sound tables");
    assert_eq!(engine.chain(1), [4, 3, 2]);
    assert_eq!(engine.chain(3), [6, 1, 7]);
    assert_eq!(Raw::of(&engine), raw);
}
