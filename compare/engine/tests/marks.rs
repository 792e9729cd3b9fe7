//! Request (ii): SS of a program that waits. Expected answers are worked out by hand from its text.
//! Programs are numbered as they are loaded.

mod common;
use common::{answers, chain, last, page, run, script};
use engine::raw::{Raw, RawRecord, RawWhy, LINKS, UNUSED};
use engine::{read, Answer, Engine};

/// A runs, owns number 1 and has it locked, and holds both tracks.
const A: &str = "FRESH,2,0,1 LOAD,A,10 LOAD,B,10 LOAD,C,10 LOAD,D,10 LOAD,E,10 RU,A RN,ALLOC,L,0 \
                 RN,LOCK,1,0 EXEC,4,2,0";

/// B, C and D wait for tracks, in this order, and A runs.
fn for_tracks() -> String {
    format!("{} RU,B RU,C RU,D PR,A,10 EXEC,4,1,0 EXEC,4,1,0 EXEC,4,1,0", A)
}

/// B, C and D wait for the lock of number 1, in this order, and A runs.
fn for_a_lock() -> String {
    format!("{} RU,B RU,C RU,D PR,A,10 RN,LOCK,1,0 RN,LOCK,1,0 RN,LOCK,1,0", A)
}

/// B, C and D wait for any number, in this order, and A runs.
fn for_any_number() -> String {
    format!("{} RU,B RU,C RU,D PR,A,10 RN,ALLOC,G,0 RN,ALLOC,L,0 RN,ALLOC,G,0", A)
}

/// The programs whose record has the mark, by their names.
fn marked(lines: &str) -> String {
    let printed = run(&script(&format!("{} PAGE", lines)));
    let mut name = "";
    let mut marked = Vec::new();
    for line in printed[printed.rfind("page=rte2").expect("a page")..].lines() {
        name = line.strip_prefix("name=").unwrap_or(name);
        if line.starts_with("suspend=") {
            assert_eq!(line, "suspend=1");
            marked.push(name);
        }
    }
    marked.join(",")
}

fn chains(lines: &str) -> [String; 4] {
    [1, 3, 5, 6].map(|state| chain(lines, state))
}

#[test]
fn a_waiter_is_marked_and_waits_on() {
    for (start, state) in [(for_tracks(), 5), (for_a_lock(), 3), (for_any_number(), 3)] {
        let once = format!("{} SS,C", start);
        assert_eq!(last(&once), "0,0");
        assert_eq!((marked(&once), chains(&once)), ("C".into(), chains(&start)));
        assert_eq!(chain(&once, state), "2,3,4");
        // All else is as it was.
        let after = run(&script(&format!("{} PAGE", once)));
        let before = run(&script(&format!("{} PAGE", start)));
        assert_eq!(
            after.replacen("answer=0,value=0\npage", "page", 1).replace("suspend=1\n", ""),
            before
        );
        // Again: done, and nothing changes.
        let twice = format!("{} SS,C", once);
        assert_eq!(last(&twice), "0,0");
        assert_eq!((marked(&twice), chains(&twice)), ("C".into(), chains(&start)));
    }
    // A father.
    let father = "LOAD,A,10 LOAD,B,10 RU,A EXEC,9,B SS,A";
    assert_eq!((last(father), marked(father)), ("0,0".into(), "A".into()));
    assert_eq!(page(father, "why"), ["son:2", "-"]);
}

/// "SS of dormant or already suspended: 5 with 0 or 6", and a scheduled one goes to chain 6.
#[test]
fn the_other_states() {
    assert_eq!(answers("LOAD,A,10 SS,A RU,A SS,A SS,A GO,A"), "0,1 5,0 0,0 0,0 5,6 0,0");
    assert_eq!(marked("LOAD,A,10 SS,A RU,A SS,A SS,A"), "");
    assert_eq!(last("LOAD,A,10 SS,B"), "4,0");
    assert_eq!(last("SS,a"), "13,0");
}

#[test]
fn go_of_a_marked_waiter() {
    for (start, answer) in [(for_tracks(), "5,5"), (for_a_lock(), "5,3"), (for_any_number(), "5,3")]
    {
        let gone = format!("{} SS,C GO,C", start);
        assert_eq!((last(&gone), marked(&gone)), (answer.into(), "C".into()));
        assert_eq!(chains(&gone), chains(&start));
        assert_eq!(last(&format!("{} SS,C RU,C", start)), answer);
    }
}

/// The page has the line behind interval, and for nobody else a line.
#[test]
fn the_line_of_the_page() {
    let printed = run(&script(&format!("{} SS,C SS,D EXEC,12,C,1,3,2 PAGE", for_a_lock())));
    let wanted = "id=3\nname=C\npriority=10\nstate=3\nwhy=lock:1\ndue=2\ninterval=3\nsuspend=1\n\
                  id=4\nname=D\npriority=10\nstate=3\nwhy=lock:1\ndue=-\ninterval=-\nsuspend=1\n\
                  id=5\nname=E\n";
    assert!(printed.contains(wanted), "{}", printed);
    assert_eq!(printed.matches("suspend").count(), 2);
}

/// Each way to wake: B and D, not marked, go to chain 1 in their order, C, marked, to chain 6 and
/// behind E, its equal there. The mark and the why are gone.
#[test]
fn every_waking() {
    let ways = [
        (for_tracks(), "EXEC,5,1,0", "0,1"),
        (for_tracks(), "EXEC,5,ALL", "0,2"),
        (for_tracks(), "OF,A,1", "0,2"),
        (for_tracks(), "OF,A,8", "0,2"),
        (for_a_lock(), "RN,CLEAR,1", "0,3"),
        (for_a_lock(), "RN,FREE,1", "0,3"),
        (for_a_lock(), "EXEC,6", "0,3"),
        (for_a_lock(), "OF,A,1", "0,2"),
        (for_a_lock(), "OF,A,8", "0,2"),
        (for_any_number(), "RN,FREE,1", "0,3"),
        (for_any_number(), "EXEC,6", "0,3"),
        (for_any_number(), "OF,A,1", "0,2"),
    ];
    for (start, wakes, answer) in ways {
        let asked = format!("{} RU,E SS,E SS,C {}", start, wakes);
        assert_eq!(last(&asked), answer, "{}", wakes);
        let runs_on = if wakes.starts_with("OF") || wakes == "EXEC,6" { "2,4" } else { "1,2,4" };
        let expected = [runs_on, "", "", "5,3"].map(String::from);
        assert_eq!(chains(&asked), expected, "{}", wakes);
        assert_eq!(marked(&asked), "", "{}", wakes);
        assert!(page(&asked, "why").iter().all(|why| why == "-"), "{}", wakes);
        // It is suspended as any other: GO takes it to chain 1, and SS is 5.
        assert!(answers(&format!("{} SS,C GO,C", asked)).ends_with("5,6 0,0"), "{}", wakes);
        // The other way round: C alone is not marked.
        let asked = format!("{} RU,E SS,E SS,D SS,B {}", start, wakes);
        assert_eq!(last(&asked), answer, "{}", wakes);
        let runs_on = if wakes.starts_with("OF") || wakes == "EXEC,6" { "3" } else { "1,3" };
        let expected = [runs_on, "", "", "5,2,4"].map(String::from);
        assert_eq!(chains(&asked), expected, "{}", wakes);
        assert_eq!(marked(&asked), "", "{}", wakes);
    }
}

#[test]
fn tracks_given_back_globally() {
    let start = "FRESH,2,0,0 LOAD,A,10 LOAD,B,10 LOAD,C,10 RU,A EXEC,15,2,0 RU,B RU,C PR,A,10 \
                 EXEC,4,1,0 EXEC,15,2,0 SS,B EXEC,16,1,1";
    assert_eq!(last(start), "0,1");
    assert_eq!(chains(start), ["1,3", "", "", "2"].map(String::from));
}

/// The son ends in each way; its father is marked.
#[test]
fn sons() {
    for (ends, answer) in [("EXEC,6", "0,1"), ("OF,B,1", "0,0"), ("OF,B,8", "0,0")] {
        let start = format!("LOAD,A,10 LOAD,B,10 RU,A EXEC,9,B SS,A {}", ends);
        assert_eq!((last(&start), marked(&start)), (answer.into(), "".into()));
        assert_eq!(chains(&start), ["", "", "", "1"].map(String::from));
        assert_eq!(page(&start, "why")[0], "-");
    }
    // A father and his son, both marked: the son waits for tracks that the caller gives back.
    let both = "FRESH,1,0,0 LOAD,A,10 LOAD,B,10 LOAD,C,10 RU,C EXEC,4,1,0 RU,A PR,C,10 EXEC,9,B \
                PR,C,10 EXEC,4,1,0 SS,A SS,B EXEC,5,ALL";
    assert_eq!((last(both), marked(both)), ("0,1".into(), "A".into()));
    assert_eq!(chains(both), ["3", "1", "", "2"].map(String::from));
    let ended = format!("{} GO,B PR,C,10 EXEC,6", both);
    assert_eq!((last(&ended), marked(&ended)), ("0,1".into(), "".into()));
    assert_eq!(chains(&ended), ["3", "", "", "1"].map(String::from));
}

/// What does not wake keeps its mark: a clear of another number, no track freed, a walk that passes.
#[test]
fn marks_of_those_who_wait_on() {
    let start = format!("{} SS,B SS,C SS,D RN,CLEAR,1", for_any_number());
    assert_eq!((last(&start), marked(&start)), ("0,0".into(), "B,C,D".into()));
    let ends = format!("{} SS,B EXEC,6", for_tracks());
    assert_eq!((last(&ends), marked(&ends)), ("0,0".into(), "B".into()));
    let other = format!("{} SS,D OF,B,1 OF,C,8", for_a_lock());
    assert_eq!((marked(&other), chain(&other, 3)), ("D".into(), "4".into()));
}

/// PR, TICK and EXEC 12 keep the mark; PR moves the program all the same.
#[test]
fn what_keeps_the_mark() {
    for (start, state) in [(for_tracks(), 5), (for_a_lock(), 3), (for_any_number(), 3)] {
        let moved = format!("{} SS,C PR,C,10", start);
        assert_eq!((last(&moved), marked(&moved)), ("0,10".into(), "C".into()));
        assert_eq!(chain(&moved, state), "2,4,3");
        let first = format!("{} SS,C PR,C,1", start);
        assert_eq!((marked(&first), chain(&first, state)), ("C".into(), "3,2,4".into()));
        // Due once and due again: it stays as it is.
        for timer in ["EXEC,12,C,1,0,1", "EXEC,12,C,1,1,1"] {
            let due = format!("{} SS,C {} TICK TICK", start, timer);
            assert_eq!((last(&due), marked(&due)), ("0,0".into(), "C".into()));
            assert_eq!(chain(&due, state), "2,3,4");
        }
    }
}

/// The timer of a program that went to chain 6 is its own as before.
#[test]
fn a_timer_behind_the_waking() {
    let start = format!("{} SS,C EXEC,12,C,1,2,1 TICK RN,CLEAR,1 TICK TICK", for_a_lock());
    assert_eq!((last(&start), chain(&start, 6)), ("0,0".into(), "3".into()));
    assert_eq!(page(&start, "due")[2], "5");
}

/// Ending clears the mark, and no program that is loaded into the record meets it.
#[test]
fn endings() {
    for start in [for_tracks(), for_a_lock(), for_any_number()] {
        let ended = format!("{} SS,C OF,C,1", start);
        assert_eq!((last(&ended), marked(&ended)), ("0,0".into(), "".into()));
        assert_eq!(page(&ended, "state")[2], "0");
        // It runs, waits and wakes as one that was never marked.
        let again = format!("{} RU,C EXEC,4,2,0 PR,A,1 EXEC,5,ALL", ended);
        assert_eq!((marked(&again), chain(&again, 6)), ("".into(), "".into()));
        let removed = format!("{} SS,C OF,C,8 LOAD,NEW,10", start);
        assert_eq!((last(&removed), marked(&removed)), ("0,3".into(), "".into()));
        let waits = format!("{} RU,NEW PR,A,10 PR,NEW,1 RN,LOCK,1,0", removed);
        assert_eq!((last(&waits), marked(&waits)), ("1,3".into(), "".into()));
    }
    // The mark does not outlive its wait.
    let again = format!("{} SS,C RN,CLEAR,1 GO,C RN,LOCK,1,0 PR,C,1 RN,LOCK,1,0", for_a_lock());
    assert_eq!((last(&again), marked(&again)), ("1,3".into(), "".into()));
}

/// Chain 5 wakes first, then chain 3 in its order: so they enter chain 6.
#[test]
fn the_order_in_chain_6() {
    // B waits for tracks, C for the lock, D for any number, all at once.
    let start =
        format!("{} RU,B RU,C RU,D PR,A,10 EXEC,4,1,0 RN,LOCK,1,0 RN,ALLOC,L,0 SS,D SS,C SS,B", A);
    assert_eq!(chains(&start), ["1", "3,4", "2", ""].map(String::from));
    let ended = format!("{} OF,A,8", start);
    assert_eq!(chains(&ended), ["", "", "", "2,3,4"].map(String::from));
    // By priority, and behind equals that were there.
    let ranked = format!("{} PR,D,5 RU,E SS,E PR,B,11 OF,A,8", start);
    assert_eq!(chain(&ranked, 6), "4,5,3,2");
    // The place is that of the chain, not that of SS.
    let moved = format!("{} PR,C,10 OF,A,1", start);
    assert_eq!(chain(&moved, 6), "2,4,3");
}

/// Tables put by hand: two that are each other's sons, a waiter for a lock that is its own.
#[test]
fn what_no_run_reaches() {
    let (engine, _) = Engine::fresh(4, 0, 1, 1975);
    let mut raw = Raw::of(&engine);
    let record = |name: &[u8; 5], why| RawRecord {
        used: true,
        name: *name,
        priority: 10,
        state: 3,
        why,
        suspend: true,
        ..UNUSED
    };
    raw.records[0] = record(b"A    ", RawWhy::Son(2));
    raw.records[1] = record(b"B    ", RawWhy::Son(1));
    raw.records[2] = record(b"C    ", RawWhy::Lock(1));
    raw.numbers[0].owner = 3;
    raw.numbers[0].lock = 3;
    raw.links[3] = 1;
    raw.links[LINKS + 1] = 2;
    raw.links[LINKS + 2] = 3;
    assert!(raw.sound());
    let (ended, answer) = raw.line(b"OF,A,1", &mut []);
    assert_eq!(answer, Answer::new(0, 0));
    assert_eq!((ended.walk(3), ended.walk(6)), (vec![3], vec![2]));
    assert_eq!(ended.records.map(|record| record.suspend)[..3], [false, false, true]);
    assert!(ended.sound());
    let (ended, answer) = raw.line(b"OF,C,8", &mut []);
    assert_eq!(answer, Answer::new(0, 0));
    assert_eq!((ended.walk(3), ended.records[2]), (vec![1, 2], UNUSED));
    // There and back, through the raw form and through a page.
    let engine = raw.engine().expect("sound tables");
    assert_eq!(Raw::of(&engine), raw);
    assert_eq!(read(&engine.page_bytes()), (raw, Answer::new(0, 0)));
}
