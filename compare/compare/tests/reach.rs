//! How deep the generated scripts go: the awkward states that a tester would have to build by hand.

use comparer::marks::{Count, Woken, CAUSES, ROWS};
use comparer::script::generate;
use comparer::{CI_LINES, CI_SEEDS};
use engine::raw::{Raw, RawWhy};
use engine::sheet::lines;
use engine::{Engine, Holder};
use std::collections::BTreeMap;

#[derive(Default)]
struct Reached(BTreeMap<&'static str, u64>);

impl Reached {
    fn note(&mut self, what: &'static str, happened: bool) {
        *self.0.entry(what).or_insert(0) += u64::from(happened);
    }
}

/// The programs that woke from this state, by the kind of their why.
fn woken(before: &Raw, after: &Raw, state: u64) -> Vec<u8> {
    let pairs = before.records.iter().zip(&after.records);
    let woken = pairs.filter(|(old, new)| {
        old.used && old.state == state && new.state == if old.suspend { 6 } else { 1 }
    });
    woken
        .map(|(old, _)| match old.why {
            RawWhy::Son(_) => 1,
            RawWhy::Lock(_) => 2,
            RawWhy::Number => 3,
            _ => 0,
        })
        .collect()
}

fn note_step(reached: &mut Reached, before: &Raw, after: &Raw, line: &[u8], value: u64) {
    let tracks = woken(before, after, 5);
    let general = woken(before, after, 3);
    reached.note("four wake from chain 5", tracks.len() >= 4);
    reached.note("three wake from chain 3", general.len() >= 3);
    reached.note("both chains wake at once", !tracks.is_empty() && !general.is_empty());
    let kinds = [1, 2, 3].iter().filter(|kind| general.contains(kind)).count();
    reached.note("two kinds of wait end at once", kinds >= 2);
    reached.note("three kinds of wait end at once", kinds >= 3);
    let removed = line.starts_with(b"OF,") && line.ends_with(b",8");
    reached.note("a son is removed", removed && general.contains(&1));
    reached.note("three timers schedule at once", line == b"TICK" && value >= 3);
    let due = |raw: &Raw| raw.records.iter().filter(|r| r.due == raw.clock + 1).count();
    reached.note("four timers due at once", line == b"TICK" && due(before) >= 4);
    let dormant_due = before.records.iter().filter(|r| r.due == before.clock + 1 && r.state != 0);
    reached.note("a timer of a waiter is due", line == b"TICK" && dormant_due.count() >= 1);
}

fn note_state(reached: &mut Reached, engine: &Engine) {
    for (what, state) in [("chain 1", 1), ("chain 3", 3), ("chain 5", 5), ("chain 6", 6)] {
        let chain = engine.chain(state);
        let first = chain.first().map(|p| engine.programs[p].priority);
        let equals = chain.iter().filter(|p| Some(engine.programs[p].priority) == first).count();
        reached.note(what, equals >= 5);
    }
    reached.note("all records used", engine.programs.len() == 32);
    let starts = |place: usize| {
        engine.tracks[place] == Holder::Free
            && (place == 0 || engine.tracks[place - 1] != Holder::Free)
    };
    reached.note("four gaps", (0..engine.tracks.len()).filter(|place| starts(*place)).count() >= 4);
    let locks = engine.numbers.iter().filter(|number| number.lock.is_some()).count();
    reached.note("four locks", locks >= 4);
    let holds = |p: &usize| engine.tracks.contains(&Holder::Program(*p));
    reached.note("a dormant program holds tracks", engine.chain(0).iter().any(holds));
    reached.note("a waiter for tracks holds some", engine.chain(5).iter().any(holds));
}

#[test]
fn awkward_states_are_reached() {
    let mut reached = Reached::default();
    for seed in CI_SEEDS {
        let mut engine = Engine::smallest();
        let mut before = Raw::of(&engine);
        for line in lines(&generate(seed, CI_LINES)) {
            let answer = engine.line(line, &mut [0; 8_704]);
            let after = Raw::of(&engine);
            let value = match answer.value {
                engine::Value::Number(number) => number,
                engine::Value::Time(_) => 0,
            };
            note_step(&mut reached, &before, &after, line, value);
            note_state(&mut reached, &engine);
            before = after;
        }
    }
    println!("{:#?}", reached.0);
    let rare: Vec<_> = reached.0.iter().filter(|(_, count)| **count < 5).collect();
    assert!(rare.is_empty(), "{:?}", rare);
}

/// Each way to wake, with the mark and without it, alone and among those of the other kind; each
/// request on those who are marked; and somebody is marked in a tenth of the scripts at least.
#[test]
fn marks_come_up() {
    let count = Count::of_scripts(CI_SEEDS, CI_LINES);
    println!("{}", count.print());
    for cause in CAUSES {
        let Woken { without, with, without_among, with_among } = count.woken(cause);
        let often = without >= 20 && with >= 20 && without_among >= 3 && with_among >= 3;
        assert!(often, "{}: {}", cause, count.print());
    }
    for row in ROWS {
        assert!(count.of(row) >= 5, "{}: {}", row, count.print());
    }
    assert_eq!(count.scripts, CI_SEEDS.end - CI_SEEDS.start);
    assert!(10 * count.marked >= count.scripts, "{}", count.print());
    assert_eq!(count.print().lines().count(), CAUSES.len() + ROWS.len() + 4);
}
