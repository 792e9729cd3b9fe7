//! What the generated scripts reach.

use comparer::differ::begins_fresh;
use comparer::script::generate;
use comparer::{CI_LINES, CI_SEEDS};
use engine::sheet::lines;
use engine::{parse, Engine, Request};
use std::collections::BTreeMap;

/// Every answer that a console line can get from tables that short runs from FRESH reach. 11, 12 and
/// 14 are not among them.
const REACHED: [(&str, &[u64]); 26] = [
    ("none", &[13]),
    ("Fresh", &[0, 3]),
    ("Load", &[0, 3, 6, 7]),
    ("Ru", &[0, 4, 5]),
    ("Ss", &[0, 4, 5]),
    ("Go", &[0, 4, 5]),
    ("Pr", &[0, 3, 4]),
    ("Of", &[0, 3, 4]),
    ("Tick", &[0]),
    ("Ticks", &[0, 3]),
    ("Exec4", &[0, 1, 2, 3, 8]),
    ("Exec15", &[0, 1, 2, 3, 8]),
    ("Exec5", &[0, 2, 3, 9]),
    ("Exec5All", &[0, 2]),
    ("Exec16", &[0, 2, 3, 9]),
    ("Exec6", &[0, 2]),
    ("Exec7", &[0, 2]),
    ("Exec9", &[1, 2, 4, 5]),
    ("Exec10", &[0, 2, 4, 5]),
    ("Exec11", &[0, 2]),
    ("Exec12", &[0, 2, 3, 4]),
    ("Alloc", &[0, 1, 2, 3, 8]),
    ("Lock", &[0, 1, 2, 3, 8, 10]),
    ("Clear", &[0, 2, 3, 9, 10]),
    ("Free", &[0, 2, 3, 9, 10]),
    ("Page", &[0]),
];

fn kind(line: &[u8]) -> String {
    let text = parse(line).map_or(String::from("none"), |r| format!("{:?}", r));
    text.split('(').next().unwrap_or("").to_string()
}

#[test]
fn every_answer_of_every_line_is_reached() {
    let mut seen: BTreeMap<(String, u64), u64> = BTreeMap::new();
    for seed in CI_SEEDS {
        let mut engine = Engine::smallest();
        for line in lines(&generate(seed, CI_LINES)) {
            let answer = engine.line(line, &mut [0; 8_704]);
            *seen.entry((kind(line), answer.number)).or_insert(0) += 1;
        }
    }
    let mut expected = Vec::new();
    for (kind, answers) in REACHED {
        expected.extend(answers.iter().map(|answer| (kind.to_string(), *answer)));
    }
    expected.sort();
    assert_eq!(seen.keys().cloned().collect::<Vec<_>>(), expected);
    let rare: Vec<_> = seen.iter().filter(|(_, count)| **count < 3).collect();
    assert!(rare.is_empty(), "{:?}", rare);
}

#[test]
fn every_byte_and_every_length() {
    let mut bytes = [false; 256];
    let mut lengths = [false; 5_001];
    let mut unfinished = 0;
    for seed in CI_SEEDS {
        let script = generate(seed, CI_LINES);
        assert!(begins_fresh(&script));
        assert_eq!(lines(&script).len(), CI_LINES);
        assert_eq!(script, generate(seed, CI_LINES));
        unfinished += u64::from(!script.ends_with(b"\n"));
        for line in lines(&script) {
            lengths[line.len()] = true;
            for byte in line {
                bytes[usize::from(*byte)] = true;
            }
        }
    }
    bytes[10] = true;
    assert!(bytes.iter().all(|seen| *seen));
    for length in [0, 1, 71, 72, 73, 74, 144, 145, 5_000] {
        assert!(lengths[length], "no line of {} bytes", length);
    }
    assert!(unfinished > 50);
}

/// Timers at the bounds of EXEC 12 in every unit, and well-formed lines up to the longest.
#[test]
fn bounds_and_long_lines() {
    let mut timers = BTreeMap::new();
    let mut longest = 0;
    for seed in CI_SEEDS {
        for line in lines(&generate(seed, CI_LINES)) {
            let request = parse(line);
            longest = longest.max(request.map_or(0, |_| line.len()));
            if let Some(Request::Exec12(_, resolution, multiple, offset)) = request {
                *timers.entry((resolution, "multiple", multiple)).or_insert(0) += 1;
                *timers.entry((resolution, "offset", offset)).or_insert(0) += 1;
            }
        }
    }
    for resolution in 1..=4 {
        for field in ["multiple", "offset"] {
            for bound in [4_094, 4_095, 4_096] {
                let count = timers.get(&(resolution, field, bound)).copied().unwrap_or(0);
                assert!(count >= 5, "resolution {}, {} {}: {}", resolution, field, bound, count);
            }
        }
    }
    assert_eq!(longest, 49);
}

#[test]
fn scripts_of_any_length() {
    for count in [1, 2, 3, 1_000] {
        assert_eq!(lines(&generate(5, count)).len(), count);
        assert!(begins_fresh(&generate(5, count)));
    }
}
