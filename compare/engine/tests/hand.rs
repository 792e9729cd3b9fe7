//! Calls on tables put by hand: those on which wrong engines show that no console line from FRESH
//! shows (`faults/tests/hand.rs`), and links of any kind.

use engine as tried;

include!("cases/hand.rs");

#[test]
fn the_right_answers() {
    for fault in [
        "sum-in-64-bits",
        "clear-already-wakes",
        "unlocked-wakes-none",
        "cycle-sound",
        "cycle-followed",
        "crossed-sound",
        "mark-sound-unused",
    ] {
        let ((_, answer), number) = called(fault);
        assert_eq!(answer.number, number, "{}", fault);
    }
}

/// Cycles and crossings in every place where links can hold them: the test ends on each.
#[test]
fn any_two_links_end() {
    let raw = tables();
    let mut sound = 0;
    for one in 0..raw.links.len() {
        for two in 0..raw.links.len() {
            for (first, second) in [(1, 2), (2, 1), (2, 3), (3, 2), (4, 4), (33, 255)] {
                let mut raw = raw.clone();
                raw.links[one] = first;
                raw.links[two] = second;
                sound += u64::from(raw.sound());
                let (after, answer) = raw.call(|engine| engine.exec6());
                assert!(raw.sound() || after == raw && answer.number == 14);
            }
        }
    }
    assert!(sound > 0);
}
