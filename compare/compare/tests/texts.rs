//! A reading desk on pairs of texts: the right one is right by a plain reading of the request, line
//! by line, and each wrong one is told from it.

use comparer::asks::{asks, Ask};
use comparer::filed::{self, Program, CI_FILED};
use comparer::looking::{
    every_pair, first_difference, fixed_trials, report, says, shortest, trials, Trial, CI_PAIRS,
    ENGINE,
};
use comparer::tally::{Count, ROWS};
use comparer::texts::{turn, Kind, Pair, Pairs};
use engine::{Answer, Desk, Found, Mark};
use faults::{Fault, Shown, FAULTS, TOGETHER_DESK};

const SEED: u64 = 1;

/// A line: where it begins and ends, and its key.
struct Line<'a> {
    begin: usize,
    end: usize,
    key: Option<&'a [u8]>,
}

/// Byte by byte, without what the engine cuts texts by.
fn lines(text: &[u8]) -> Vec<Line<'_>> {
    let mut lines = Vec::new();
    let (mut begin, mut equals) = (0, None);
    for (place, byte) in text.iter().chain([&b'\n']).enumerate() {
        if *byte == b'\n' {
            // What is behind the last byte 10 is no line where it is nothing.
            if place < text.len() || begin < place {
                lines.push(Line { begin, end: place, key: equals.map(|at| &text[begin..at]) });
            }
            (begin, equals) = (place + 1, None);
        } else if *byte == b'=' && equals.is_none() {
            equals = Some(place);
        }
    }
    lines
}

/// The lines with this key, counted off.
fn nth<'a>(lines: &'a [Line], key: &[u8], occurrence: u64) -> Option<&'a Line<'a>> {
    let mut count = 0;
    lines.iter().find(|line| {
        count += u64::from(line.key == Some(key));
        line.key == Some(key) && count == occurrence
    })
}

fn plain_find(pair: &Pair, key: &[u8], occurrence: u64) -> Found {
    let (original, copy) = (lines(&pair.original), lines(&pair.copy));
    let found = |mark: Mark, line: &Line| {
        let Line { begin, end, .. } = *line;
        Found { answer: Answer::new(0, 0), mark, begin, end }
    };
    let refused = |number: u64| {
        let answer = Answer::new(number, 0);
        Found { answer, mark: Mark::Original, begin: 0, end: 0 }
    };
    if key.is_empty() || occurrence == 0 {
        return refused(3);
    }
    match (nth(&original, key, occurrence), nth(&copy, key, occurrence)) {
        (Some(line), _) => found(Mark::Original, line),
        (None, Some(line)) => found(Mark::Copy, line),
        (None, None) => refused(17),
    }
}

fn plain_list(pair: &Pair) -> Vec<u64> {
    let (original, copy) = (lines(&pair.original), lines(&pair.copy));
    let mut numbers = Vec::new();
    for (place, line) in original.iter().enumerate() {
        if let Some(key) = line.key {
            let same = original[..=place].iter().filter(|line| line.key == Some(key));
            let bytes = &pair.original[line.begin..line.end];
            let other = nth(&copy, key, same.count() as u64);
            if other.map(|other| &pair.copy[other.begin..other.end]) != Some(bytes) {
                numbers.push(place as u64 + 1);
            }
        }
    }
    numbers
}

fn check(pair: &Pair, ask: &Ask, numbers: &[u64]) {
    let desk = Desk::new(&pair.original, &pair.copy);
    match ask {
        Ask::Find { key, occurrence } => {
            let found = desk.find(key, *occurrence);
            assert_eq!(found, plain_find(pair, key, *occurrence), "{:?} {:?}", pair, ask);
        }
        Ask::List { lent } => {
            let (mut list, mut expected) = (lent.clone(), lent.clone());
            let needed = numbers.len();
            let number = if lent.len() < needed { 12 } else { 0 };
            if number == 0 {
                expected[..needed].copy_from_slice(numbers);
            }
            assert_eq!(desk.list(&mut list), Answer::new(number, needed as u64), "{:?}", pair);
            assert_eq!(list, expected, "{:?}", pair);
        }
    }
}

/// All finds of a few keys and lists of every length, on every pair of short texts.
#[test]
fn short_texts_line_by_line() {
    let keys: [&[u8]; 8] = [b"", b"a", b"aa", b"=", b"a=", b"\n", b"a\na", b"b"];
    for pair in every_pair(b"a=\n", 4) {
        let numbers = plain_list(&pair);
        for size in 0..numbers.len() + 2 {
            check(&pair, &Ask::List { lent: vec![77; size] }, &numbers);
        }
        for key in keys {
            for occurrence in [0, 1, 2, 3, u64::MAX] {
                check(&pair, &Ask::Find { key: key.to_vec(), occurrence }, &numbers);
            }
        }
    }
}

#[test]
fn other_texts_line_by_line() {
    let mut pairs = Pairs::new(SEED);
    for _ in 0..CI_PAIRS {
        let (_, _, pair) = pairs.of_any_kind();
        let numbers = plain_list(&pair);
        for ask in asks(pairs.prng(), &pair, numbers.len()) {
            check(&pair, &ask, &numbers);
        }
    }
}

/// Each row comes up often, and of every kind and relation there are some.
#[test]
fn every_row_comes_up() {
    let count = Count::of_pairs(SEED, CI_PAIRS);
    assert_eq!(count.pairs(), CI_PAIRS as u64);
    assert!(count.rows().iter().all(|times| *times >= 500), "{}", count.print());
    for (kind, counts) in &count.kinds {
        let each = counts.iter().all(|times| *times > 0);
        assert!(each || *kind == Kind::Long && counts[1] > 5, "{}", count.print());
    }
    assert_eq!(count.print().lines().count(), 10 + ROWS.len(), "{}", count.print());
}

/// A miscopied text is mostly another one, and a pair is found both ways round.
#[test]
fn copies() {
    let mut pairs = Pairs::new(SEED);
    for kind in turn() {
        let (mut other, mut way) = (0, [0; 2]);
        for _ in 0..60 {
            let (_, Pair { original, copy }) = pairs.pair(kind);
            other += usize::from(original != copy);
            way[usize::from(original.len() < copy.len())] += 1;
        }
        assert!(other > 35 && way.iter().all(|times| *times > 5), "{:?} {} {:?}", kind, other, way);
    }
}

#[test]
fn the_same_pairs_from_a_seed() {
    let pairs = |seed| {
        let mut pairs = Pairs::new(seed);
        (0..300).map(|_| pairs.of_any_kind()).collect::<Vec<_>>()
    };
    assert_eq!(pairs(7), pairs(7));
    assert_ne!(pairs(7), pairs(8));
    let very_long = Pairs::new(1).pair(Kind::Long).1;
    assert!(very_long.original.len().max(very_long.copy.len()) > 200);
}

fn wrong(shown: Shown) -> Vec<&'static Fault> {
    FAULTS.iter().filter(|fault| fault.shown == shown).collect()
}

#[test]
fn each_wrong_desk_is_found() {
    let all: Vec<Trial> = trials(SEED, CI_PAIRS).collect();
    // What all wrong ones that are built together have in common is right.
    assert!(first_difference(&TOGETHER_DESK, all.iter().chain(&fixed())).is_none());
    let wrong = wrong(Shown::OnTexts);
    assert!(wrong.len() >= 86, "{}", wrong.len());
    for fault in wrong {
        let found = first_difference(&fault.desk, all.iter());
        let found = found.unwrap_or_else(|| panic!("missed: {}", fault.name));
        // A very long pair is made short slowly.
        if found.pair.original.len() + found.pair.copy.len() < 2_000 {
            let said = report(&fault.desk, &found).expect("an engine always runs");
            assert!(said.contains("the other says:"), "{}", said);
        }
    }
}

fn fixed() -> Vec<Trial> {
    fixed_trials().collect()
}

/// What a pair is made short to still fails, and no line of it can go.
#[test]
fn pairs_made_short() {
    let fault = Fault::by_name("counterpart-by-first").expect("a fault");
    let all: Vec<Trial> = trials(SEED, 100).collect();
    let found = first_difference(&fault.desk, all.iter()).expect("a difference");
    let differs =
        |pair: &Pair| Ok(says(&fault.desk, pair, &found.ask) != says(&ENGINE, pair, &found.ask));
    let short = shortest(&found.pair, differs).expect("an engine always runs");
    assert_eq!(differs(&short), Ok(true));
    assert!(lines(&short.original).len() <= 2, "{:?}", short);
}

/// What `desk` prints tells no value of a found line, no mark of a refusal, no place in a text, and
/// nothing of a lent list.
const NOT_PRINTED: [&str; 22] = [
    "refused-marked-copy",
    "not-allowed-marked-copy",
    "refused-at-the-end",
    "found-tells-the-line",
    "found-with-byte-10",
    "found-without-its-key",
    "begins-in-16-bits",
    "no-end-counted",
    "copys-numbers",
    "short-list-filled",
    "short-list-cleared",
    "one-place-more-needed",
    "places-lacking-told",
    "places-lent-told",
    "exact-list-short",
    "no-place-short",
    "short-list-not-told",
    "rest-cleared",
    "one-place-behind",
    "listed-at-the-end",
    "places-told",
    "keyed-lines-told",
];

/// On as few pairs as a program is given, wrong desks are found by what is printed.
#[test]
fn what_is_printed() {
    for fault in wrong(Shown::OnTexts).into_iter().chain(wrong(Shown::OnPaper)) {
        if NOT_PRINTED.contains(&fault.name) {
            continue;
        }
        let program = Program::Engine(fault.desk.print);
        let found = filed::run(&program, SEED, CI_FILED, &mut filed::Count::default());
        let found = found.expect("an engine always runs");
        let found = found.unwrap_or_else(|| panic!("missed: {}", fault.name));
        let said = filed::report(&program, &found).expect("an engine always runs");
        assert!(said.contains("  > "), "{}", said);
    }
    let all: Vec<Trial> = trials(SEED, 300).collect();
    for fault in wrong(Shown::OnPaper) {
        assert!(first_difference(&fault.desk, all.iter()).is_none(), "{}", fault.name);
    }
}

/// A right program passes.
#[test]
fn a_right_program() {
    let mut total = filed::Count::default();
    let passed = filed::run(&Program::Engine(ENGINE.print), SEED, CI_FILED, &mut total);
    assert!(passed.expect("an engine always runs").is_none());
    let pairs = (CI_FILED + filed::fixed().len()) as u64;
    assert_eq!((total.pairs, total.runs), (pairs, 4 * pairs));
}
