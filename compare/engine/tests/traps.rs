//! Small scripts for the places where a natural implementation goes wrong. Expected answers are
//! worked out by hand from the outline. Programs are numbered as they are loaded.

mod common;
use common::{answers, chain, last, page};
use engine::{Answer, Engine, Kind};

const THREE: &str = "LOAD,A,10 LOAD,B,10 LOAD,C,10";

#[test]
fn woken_and_moved_programs_go_behind_their_equals() {
    let start = format!("FRESH,2,0,0 {} RU,A EXEC,4,2,0 RU,B RU,C", THREE);
    assert_eq!(chain(&start, 1), "1,2,3");
    let moved = format!("{} PR,A,10", start);
    assert_eq!(chain(&moved, 1), "2,3,1");
    let waits = format!("{} EXEC,4,1,0 PR,C,10", moved);
    assert_eq!(chain(&waits, 1), "1,3");
    assert_eq!(last(&format!("{} EXEC,5,ALL", waits)), "0,2");
    assert_eq!(chain(&format!("{} EXEC,5,ALL", waits), 1), "1,3,2");
}

#[test]
fn a_run_does_not_reach_across_a_gap() {
    let start = "FRESH,5,0,0 LOAD,A,10 RU,A EXEC,4,1,1 EXEC,4,1,1 EXEC,4,1,1 EXEC,5,1,1";
    let claims = format!("{} EXEC,4,3,1 EXEC,4,2,1 EXEC,4,1,1", start);
    assert_eq!(answers(&claims), "0,0 0,1 0,0 0,0 0,1 0,2 0,1 8,0 0,3 0,1");
    assert_eq!(page(&claims, "held"), ["0-4:1"]);
    assert_eq!(page(start, "held"), ["0-0:1", "2-2:1"]);
}

#[test]
fn the_due_of_a_program_that_waits_moves_on() {
    let start = "LOAD,A,10 RU,A EXEC,12,A,1,2,1 TICK";
    assert_eq!(answers(start), "0,1 0,0 0,1 0,0");
    assert_eq!(page(start, "due"), ["3"]);
    assert_eq!(answers(&format!("{} EXEC,6 TICK TICK", start)), "0,1 0,0 0,1 0,0 0,0 0,0 0,1");
    let once = "LOAD,A,10 RU,A EXEC,12,A,1,0,1 TICK EXEC,6 TICK";
    assert_eq!(last(once), "0,0");
    assert_eq!(page(once, "due"), ["-"]);
    assert_eq!(page("LOAD,A,10 RU,A EXEC,12,A,1,0,1", "interval"), ["0"]);
}

#[test]
fn a_removed_son_is_nobodys_son() {
    let start = "LOAD,A,10 LOAD,B,10 RU,A EXEC,9,B OF,B,8";
    assert_eq!(answers(start), "0,1 0,2 0,0 1,3 0,0");
    assert_eq!(page(start, "why"), ["-"]);
    let next = format!("{} LOAD,C,5 RU,C EXEC,6", start);
    assert_eq!(answers(&next), "0,1 0,2 0,0 1,3 0,0 0,2 0,0 0,0");
    assert_eq!(chain(&next, 1), "1");
}

#[test]
fn all_that_wait_for_a_lock_wake() {
    let start =
        "FRESH,1,0,1 LOAD,A,10 LOAD,B,10 LOAD,C,10 LOAD,D,10 RU,A RN,ALLOC,G,0 RN,LOCK,1,0 \
        RU,B RU,C RU,D PR,A,10 RN,LOCK,1,0 RN,LOCK,1,0 RN,LOCK,1,0";
    assert_eq!(chain(start, 3), "2,3,4");
    let cleared = format!("{} RN,CLEAR,1", start);
    assert_eq!(last(&cleared), "0,3");
    assert_eq!(chain(&cleared, 1), "1,2,3,4");
    assert_eq!(page(&cleared, "number"), ["1:global:-"]);
}

#[test]
fn chain_3_is_walked_once() {
    // B waits for any number, then C for the lock.
    let start = format!(
        "FRESH,1,0,1 {} RU,A RN,ALLOC,L,0 RN,LOCK,1,0 RU,B RU,C PR,A,10 RN,ALLOC,L,0 RN,LOCK,1,0",
        THREE
    );
    assert_eq!(chain(&start, 3), "2,3");
    let freed = format!("{} RN,FREE,1", start);
    assert_eq!(last(&freed), "0,2");
    assert_eq!(chain(&freed, 1), "1,2,3");
    // C waits for the lock; A for its son B, but PR has put it behind C.
    let sons = format!(
        "FRESH,1,0,1 {} RU,A EXEC,9,B RN,ALLOC,G,0 RN,LOCK,1,0 RU,C PR,B,10 RN,LOCK,1,0 PR,A,10 EXEC,6",
        THREE
    );
    assert_eq!(last(&sons), "0,2");
    assert_eq!(chain(&sons, 1), "3,1");
}

#[test]
fn chain_5_wakes_before_chain_3() {
    let start = format!("FRESH,2,0,0 {} RU,A EXEC,9,B EXEC,4,2,0 RU,C PR,B,10 EXEC,4,1,0", THREE);
    assert_eq!((chain(&start, 3), chain(&start, 5)), ("1".into(), "3".into()));
    assert_eq!(last(&format!("{} OF,B,1", start)), "0,2");
    assert_eq!(chain(&format!("{} OF,B,1", start), 1), "3,1");
}

#[test]
fn an_ended_program_does_not_wake_itself() {
    let ended = "FRESH,2,0,0 LOAD,A,10 RU,A EXEC,4,1,0 EXEC,4,2,0 OF,A,1";
    assert_eq!(answers(ended), "0,0 0,1 0,0 0,0 1,5 0,1");
    assert_eq!((chain(ended, 1), chain(ended, 5)), ("".into(), "".into()));
    assert_eq!(page(ended, "state"), ["0"]);
    assert_eq!(page(ended, "why"), ["-"]);
}

#[test]
fn anothers_lock_goes_with_the_number() {
    let start = "FRESH,1,0,1 LOAD,A,10 LOAD,B,10 RU,A RN,ALLOC,L,0 RU,B PR,A,10 RN,LOCK,1,0";
    assert_eq!(page(start, "number"), ["1:1:2"]);
    let ended = format!("{} OF,A,1 RN,CLEAR,1 RN,ALLOC,G,0", start);
    assert_eq!(answers(&ended), "0,0 0,1 0,2 0,0 0,1 0,0 0,10 0,1 0,0 10,0 0,1");
    assert_eq!(page(&ended, "number"), ["1:global:-"]);
}

#[test]
fn an_ended_locker_of_anothers_number_wakes() {
    let start = format!(
        "FRESH,1,0,1 {} RU,A RN,ALLOC,L,0 RU,B PR,A,10 RN,LOCK,1,0 RU,C PR,B,10 PR,A,10 RN,LOCK,1,0",
        THREE
    );
    assert_eq!((chain(&start, 1), chain(&start, 3)), ("2,1".into(), "3".into()));
    let ended = format!("{} EXEC,6", start);
    assert_eq!(last(&ended), "0,1");
    assert_eq!(chain(&ended, 1), "1,3");
    assert_eq!(page(&ended, "number"), ["1:1:-"]);
}

#[test]
fn clearing_wakes_nobody_who_waits_for_any_number() {
    let start =
        "FRESH,1,0,1 LOAD,A,10 LOAD,B,10 RU,A RN,ALLOC,G,0 RN,LOCK,1,0 RU,B PR,A,10 RN,ALLOC,L,0";
    assert_eq!(page(start, "why"), ["-", "number"]);
    assert_eq!(last(&format!("{} RN,CLEAR,1", start)), "0,0");
    assert_eq!(last(&format!("{} EXEC,6", start)), "0,0");
    assert_eq!(page(&format!("{} EXEC,6", start), "number"), ["1:global:-"]);
    assert_eq!(last(&format!("{} RN,FREE,1", start)), "0,1");
}

#[test]
fn exec_6_keeps_what_of_takes() {
    let start = "FRESH,3,0,0 LOAD,A,10 RU,A EXEC,4,2,0 EXEC,12,A,1,5,9 EXEC,6";
    assert_eq!(answers(start), "0,0 0,1 0,0 0,0 0,9 0,0");
    assert_eq!(page(start, "held"), ["0-1:1"]);
    assert_eq!((page(start, "due"), page(start, "interval")), (vec!["9".into()], vec!["5".into()]));
    let ended = format!("{} OF,A,1", start);
    assert_eq!(last(&ended), "0,2");
    assert!(page(&ended, "held").is_empty());
    assert_eq!(page(&ended, "due"), ["-"]);
}

#[test]
fn pr_moves_in_every_chain() {
    let two = "LOAD,A,10 LOAD,B,10 RU,A RU,B";
    let suspended = format!("{} EXEC,7 EXEC,7 PR,A,10", two);
    assert_eq!(chain(&suspended, 6), "2,1");
    let tracks = format!("FRESH,1,1,0 {} EXEC,4,1,0 EXEC,15,1,0 PR,A,10", two);
    assert_eq!(chain(&tracks, 5), "2,1");
    assert_eq!(page(&tracks, "why"), ["tracks:1", "tracks:1"]);
    let general = format!("{} RN,ALLOC,L,0 RN,ALLOC,G,0 PR,A,10", two);
    assert_eq!(chain(&general, 3), "2,1");
    assert_eq!(page(&general, "why"), ["number", "number"]);
    assert_eq!(chain(&format!("{} PR,B,10 PR,A,9", two), 1), "1,2");
    // A dormant program is in no chain; priority 0 can be left but not set.
    assert_eq!(answers("LOAD,A,0 PR,A,5 PR,A,0 PR,A,5"), "0,1 0,0 3,0 0,5");
}

#[test]
fn timers_due_together_go_by_program_number() {
    let start = "LOAD,A,10 LOAD,B,10 LOAD,C,1 RU,C EXEC,12,B,1,0,2 EXEC,12,A,1,0,2 TICK TICK";
    assert_eq!(last(start), "0,2");
    assert_eq!(chain(start, 1), "3,1,2");
}

#[test]
fn numbers_are_not_cut_to_32_bits() {
    assert_eq!(last("LOAD,A,10 OF,A,4294967297"), "3,0");
    assert_eq!(last("LOAD,A,4294967297"), "3,0");
    assert_eq!(last("LOAD,A,10 RU,A EXEC,4,4294967297,0"), "3,0");
    assert_eq!(last("LOAD,A,10 RU,A EXEC,4294967300,1,0"), "13,0");
    assert_eq!(last("LOAD,A,10 RU,A EXEC,12,A,4,4095,4095"), "0,1474200000");
    assert_eq!(last("LOAD,A,10 RU,A EXEC,12,A,4294967297,0,1"), "3,0");
    assert_eq!(last("FRESH,4294967297,0,0"), "3,0");
}

#[test]
fn wide_parameters_are_refused() {
    let (mut engine, _) = Engine::fresh(4, 0, 2, 1975);
    let (a, most) = (*b"A    ", u64::MAX);
    assert_eq!(engine.load(a, most), Err(Answer::new(3, 0)));
    assert_eq!(engine.load(a, 32_767), Ok(Answer::new(0, 1)));
    assert_eq!(engine.ru(a), Ok(Answer::new(0, 0)));
    let before = engine.clone();
    let refused = [
        engine.exec4(most, 0),
        engine.exec4(1, most),
        engine.exec15(most, 1),
        engine.exec5(most, 1),
        engine.exec5(1, most),
        engine.exec5(most, most),
        engine.exec16(most, 1),
        engine.exec16(1, most),
        engine.exec12(a, most, 0, 1),
        engine.exec12(a, 1, most, 1),
        engine.exec12(a, 1, 0, most),
        engine.alloc(Kind::Local, most),
        engine.lock(most, 0),
        engine.lock(1, most),
        engine.clear(most),
        engine.free(most),
        engine.pr(a, most),
        engine.of(a, most),
        engine.ru(*b"A B  "),
        engine.ss(*b"     "),
        engine.go(*b"A\0\0\0\0"),
        engine.exec9(*b"1    "),
        engine.exec10(*b"a    "),
    ];
    for answer in refused {
        assert_eq!(answer, Err(Answer::new(3, 0)));
    }
    assert_eq!(engine, before);
    assert_eq!(Engine::fresh(most, 0, 0, 1975).1, Err(Answer::new(3, 0)));
    assert_eq!(Engine::fresh(5, 6, 0, 1975).0, Engine::smallest());
    assert_eq!(Engine::fresh(1, 0, 0, most).1, Err(Answer::new(3, 0)));
}

#[test]
fn no_caller_and_exec_7() {
    assert_eq!(answers("EXEC,11 EXEC,5,ALL RN,LOCK,99,7 EXEC,4,0,9"), "2,0 2,0 2,0 2,0");
    assert_eq!(last("EXEC,8"), "13,0");
    assert_eq!(last("LOAD,A,10 RU,A EXEC,7"), "0,0");
    assert_eq!(last("LOAD,A,10 RU,A EXEC,11"), "0,1975.1.0.0.0.0");
}

#[test]
fn the_wrong_state_is_the_targets() {
    let start = "FRESH,1,1,0 LOAD,A,10 LOAD,B,10 LOAD,C,10 LOAD,D,20 RU,A RU,B RU,C RU,D \
        RN,ALLOC,L,0 EXEC,4,1,0 EXEC,7 EXEC,9,A EXEC,10,B EXEC,9,C EXEC,9,D GO,A RU,D SS,C";
    let printed = answers(start);
    assert!(printed.ends_with("1,3 1,5 0,0 5,3 5,5 5,6 5,1 5,3 5,1 5,6"), "{}", printed);
    assert_eq!(answers("LOAD,A,10 GO,A SS,A"), "0,1 5,0 5,0");
}

#[test]
fn a_refused_fresh_keeps_the_tables() {
    let start = "FRESH,4,1,1 LOAD,A,10 FRESH,0,0,0 FRESH,257,0,0 FRESH,4,5,0 FRESH,4,4,17 FRESH,1";
    assert_eq!(answers(start), "0,0 0,1 3,0 3,0 3,0 3,0 13,0");
    assert_eq!((page(start, "tracks"), page(start, "name")), (vec!["4".into()], vec!["A".into()]));
}

#[test]
fn a_started_equal_does_not_run_at_once() {
    let start = "LOAD,A,10 LOAD,B,10 RU,A RU,B EXEC,7";
    assert_eq!((chain(start, 1), chain(start, 6)), ("2".into(), "1".into()));
}

#[test]
fn a_woken_father_with_a_better_priority_runs_next() {
    let start = "LOAD,F,1 LOAD,S,10 RU,F EXEC,9,S RU,S EXEC,6 EXEC,7";
    assert_eq!(answers(start), "0,1 0,2 0,0 1,3 5,1 0,1 0,0");
    assert_eq!(chain(start, 6), "1");
}

#[test]
fn a_record_used_again_inherits_nothing() {
    let start = "FRESH,4,0,1 LOAD,A,10 RU,A EXEC,4,2,0 RN,ALLOC,L,0 EXEC,12,A,1,1,1 EXEC,6";
    // The number went with the ending, the tracks stayed.
    assert_eq!((page(start, "held"), page(start, "number")), (vec!["0-1:1".into()], vec![]));
    let again = format!("{} OF,A,8 LOAD,B,7", start);
    assert!(answers(&again).ends_with("0,2 0,1"));
    assert!(page(&again, "held").is_empty());
    assert_eq!((page(&again, "due"), page(&again, "name")), (vec!["-".into()], vec!["B".into()]));
}

#[test]
fn all_that_frees_nothing_wakes_nobody() {
    let start = "FRESH,1,1,0 LOAD,A,10 LOAD,B,10 RU,A RU,B EXEC,4,1,0 EXEC,5,ALL";
    assert_eq!(last(start), "0,0");
    assert_eq!(chain(start, 5), "1");
}

#[test]
fn locking_and_freeing_what_others_own() {
    let start = "FRESH,1,0,2 LOAD,A,10 LOAD,B,10 RU,A RN,ALLOC,L,0 RN,ALLOC,G,0 RU,B PR,A,10";
    let tries = format!(
        "{} RN,FREE,1 RN,CLEAR,1 RN,LOCK,1,0 RN,LOCK,1,0 RN,LOCK,2,0 PR,B,10 \
         RN,FREE,1 RN,FREE,2 RN,CLEAR,1 RN,LOCK,1,1 PR,A,10 RN,FREE,2 RN,FREE,2 RN,CLEAR,2 RN,FREE,3",
        start
    );
    let expected = "9,0 0,0 0,1 0,1 0,2 0,10 9,0 9,0 9,0 8,0 0,10 0,0 10,0 10,0 3,0";
    assert!(answers(&tries).ends_with(expected), "{}", answers(&tries));
}
