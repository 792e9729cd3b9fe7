//! A `follow` on runs of sheets: the right one is right by what `sheet` prints and by a plain
//! reading of what differs, and each wrong one is told from it.

use comparer::following::{
    report, run, runs, shortened, tried, Difference, Program, CI_TRIPLES, ENGINE,
};
use comparer::looking::every_pair;
use comparer::make;
use comparer::nooks::fixed;
use comparer::prng::Prng;
use comparer::script::{generate, going_on};
use comparer::sheets::{Content, Run, Runs, Sheet};
use comparer::slip::slip;
use comparer::texts::{Pair, Pairs};
use comparer::verdicts::{Count, ROWS};
use engine::sheet::{lines, print_line};
use engine::{read, sheet, Answer, Engine};
use faults::{Fault, Follow, Shown, FAULTS, TOGETHER_FOLLOW};

const SEED: u64 = 1;

/// Where nothing is listed and one ends before the other: no two pages are so, but texts are.
const ON_TEXTS: [&str; 2] = ["parting-not-behind-the-sheet", "parting-not-behind-the-written"];

fn wrong() -> impl Iterator<Item = &'static Fault> {
    FAULTS.iter().filter(|fault| fault.shown == Shown::OnSheets)
}

/// The key of a line, and which of the lines with this key it is.
fn places<'a>(text: &[&'a [u8]]) -> Vec<Option<(&'a [u8], usize)>> {
    let key = |line: &'a [u8]| line.iter().position(|byte| *byte == b'=').map(|end| &line[..end]);
    let keys: Vec<Option<&[u8]>> = text.iter().map(|line| key(line)).collect();
    let occurrence = |at: usize| keys[..=at].iter().filter(|key| **key == keys[at]).count();
    (0..keys.len()).map(|at| keys[at].map(|key| (key, occurrence(at)))).collect()
}

/// Line by line, without the engine's desk.
fn plain_differences(sheet: &[u8], written: &[u8]) -> String {
    let shown = |line: Option<&[u8]>| match line {
        Some(line) => line.iter().map(|byte| *byte as char).collect(),
        None => String::from("no such line"),
    };
    let told = |what: &str, at: usize, one: Option<&[u8]>, other: Option<&[u8]>| {
        let (one, other) = (shown(one), shown(other));
        format!("{} {}: {} on the sheet, {} by the requests\n", what, at + 1, one, other)
    };
    let (sheet, written) = (lines(sheet), lines(written));
    let (here, there) = (places(&sheet), places(&written));
    let mut text = String::new();
    for at in (0..sheet.len()).filter(|at| here[*at].is_some()) {
        let other = there.iter().position(|place| *place == here[at]).map(|other| written[other]);
        if other != Some(sheet[at]) {
            text += &told("line", at, Some(sheet[at]), other);
        }
    }
    for at in (0..written.len()).filter(|at| there[*at].is_some() && !here.contains(&there[*at])) {
        text += &told("written line", at, None, Some(written[at]));
    }
    let most = sheet.len().max(written.len());
    let part = (0..most).find(|at| sheet.get(*at) != written.get(*at));
    match part {
        Some(at) if text.is_empty() => {
            told("line", at, sheet.get(at).copied(), written.get(at).copied())
        }
        _ => text,
    }
}

/// Each byte as a character of its own.
fn text(bytes: &[u8]) -> String {
    bytes.iter().map(|byte| *byte as char).collect()
}

fn check_differences(Pair { original, copy }: &Pair) {
    let said = text(&engine::follow::differences(original, copy));
    assert_eq!(said, plain_differences(original, copy), "{:?} {:?}", original, copy);
}

#[test]
fn differences_line_by_line() {
    every_pair(b"a=\n", 4).for_each(|pair| check_differences(&pair));
    let mut pairs = Pairs::new(SEED);
    for _ in 0..2_000 {
        let (_, _, pair) = pairs.of_any_kind();
        // What is plain is slow on many lines.
        if lines(&pair.original).len().max(lines(&pair.copy).len()) < 1_000 {
            check_differences(&pair);
        }
    }
}

fn alone(first: &[u8], requests: &[u8], next: &[u8]) -> String {
    let sheets = [("f", first), ("r", requests), ("n", next)];
    let sheets = sheets.iter().map(|(name, text)| Sheet::text(name, text)).collect();
    let run = Run { what: String::new(), sheets };
    text(&(ENGINE.print)(&run.given()))
}

/// What `sheet` prints behind a script is what is shown for the same lines behind the script's page;
/// and the page behind them follows, or differs in what is different on it.
#[test]
fn as_sheet_goes_on() {
    let mut prng = Prng::new(SEED);
    for seed in 0..400 {
        let mut script = generate(seed, prng.between(1, 200) as usize);
        if !script.ends_with(b"\n") {
            script.push(b'\n');
        }
        let mut engine = Engine::smallest();
        lines(&script).iter().for_each(|line| drop(print_line(&mut engine, line)));
        let (first, count) = (engine.page_bytes(), prng.between(1, 30) as usize);
        let asked = going_on(&mut prng, &mut engine, count).join(&b'\n');
        let next = engine.page_bytes();
        let mut shown = String::from("f: answer=0,value=0\n");
        let mut behind = &sheet(&[&script[..], &asked].concat())[sheet(&script).len()..];
        for (number, line) in (1..).zip(lines(&asked)) {
            let page = line == b"PAGE";
            let end = if page { "\nend=page\n" } else { "\n" };
            let size = text(behind).find(end).expect("an answer") + end.len();
            let answer = match page {
                true => format!("answer=0,value={}", size),
                false => text(&behind[..size - 1]),
            };
            let front: String = text(&line[..line.len().min(72)])
                .chars()
                .map(|c| if (' '..='~').contains(&c) { c } else { '?' })
                .collect();
            let dots = if line.len() > 72 { ".." } else { "" };
            shown += &format!("{}: {}{} -> {}", number, front, dots, answer);
            let number = answer.trim_start_matches("answer=").split(',').next().map(str::len);
            let refused = number == Some(2) || !"01".contains(&answer[7..8]);
            shown += if refused { " (refused)\n" } else { "\n" };
            behind = &behind[size..];
        }
        shown += "n: answer=0,value=0\n";
        assert_eq!(without_meanings(&alone(&first, &asked, &next)), shown.clone() + "n: follows\n");
        if let Some((slipped, _)) = slip(&mut prng, &engine) {
            let said = without_meanings(&alone(&first, &asked, &slipped));
            let differences = plain_differences(&slipped, &next);
            assert_eq!(said, format!("{}n: does not follow\n{}", shown, differences));
        }
    }
}

fn without_meanings(said: &str) -> String {
    let line = |line: &str| match line.find(" (refused: ") {
        Some(end) => format!("{} (refused)\n", &line[..end]),
        None => format!("{}\n", line),
    };
    said.split_terminator('\n').map(line).collect()
}

/// A page with a slip is a page, and another one: most often one line is another, and there are
/// some with lines more and with lines fewer.
#[test]
fn slips() {
    let mut prng = Prng::new(SEED);
    let (mut others, mut one, mut more, mut fewer) = (0, 0, 0, 0);
    for _ in 0..60 {
        for raw in make::reached(&mut prng, 6) {
            let engine = raw.engine().expect("sound tables");
            let own = engine.page_bytes();
            let (page, slipped) = slip(&mut prng, &engine).expect("a clock can be another");
            let (raw, answer) = read(&page);
            assert_eq!((answer, raw.engine()), (Answer::new(0, 0), Some(slipped)));
            assert_ne!(page, own);
            let (here, there) = (lines(&page).len(), lines(&own).len());
            others += 1;
            more += usize::from(here > there);
            fewer += usize::from(here < there);
            one += usize::from(plain_differences(&page, &own).lines().count() == 1);
        }
    }
    let often = one > others / 3 && more > others / 20 && fewer > others / 20;
    assert!(often, "{} of {}, {} more, {} fewer", one, others, more, fewer);
}

fn count_of(seed: u64, triples: usize) -> Count {
    let mut count = Count::default();
    let passed = run(&Program::Engine(ENGINE), seed, triples, &mut count);
    assert!(passed.expect("an engine always runs").is_none());
    count
}

/// Each row comes up in what a program is given by the gate.
#[test]
fn every_row_comes_up() {
    let count = count_of(SEED, CI_TRIPLES);
    assert!(ROWS.iter().all(|row| count.of(row) > 0), "{}", count.print());
    let triples = CI_TRIPLES as u64 + fixed().iter().map(Run::triples).sum::<u64>();
    assert!((triples..triples + 6).contains(&count.triples), "{}", count.print());
    assert_eq!(count.print().lines().count(), ROWS.len() + 2);
}

/// As many triples follow as do not, and what is no page or cannot be read is among the others.
#[test]
fn half_of_them_follow() {
    let mut count = Count::default();
    for run in Runs::new(SEED).take(1_000) {
        count.add(&run, &(ENGINE.print)(&run.given()));
    }
    let of_hundred = |row: &str| 100 * count.of(row) / count.triples;
    let [follows, does_not] = ["follows", "does not follow"].map(of_hundred);
    assert!((40..=46).contains(&follows) && (40..=46).contains(&does_not), "{}", count.print());
    assert!(count.of("page read") > 2 * count.triples / 2, "{}", count.print());
    for row in ["refused with 6", "refused with 7", "refused with 11", "15, 0", "a time", "PAGE"] {
        assert!(count.of(row) > 5, "{}: {}", row, count.print());
    }
}

/// The same seed gives the same runs, and another one others.
#[test]
fn runs_of_a_seed() {
    let some = |seed: u64| Runs::new(seed).take(20).collect::<Vec<Run>>();
    assert_eq!(some(SEED), some(SEED));
    assert_ne!(some(SEED), some(SEED + 1));
}

#[test]
fn each_wrong_one_is_found() {
    let with_right = |(_, run): (Option<u64>, Run)| {
        let right = (ENGINE.print)(&run.given());
        (run, right)
    };
    let all: Vec<(Run, Vec<u8>)> = runs(SEED, CI_TRIPLES).map(with_right).collect();
    let is_found = |follow: Follow| all.iter().any(|(run, right)| tried(follow, run) != *right);
    // The right one passes through the same code.
    assert!(!is_found(TOGETHER_FOLLOW));
    assert!(wrong().count() >= 128, "{}", wrong().count());
    for fault in wrong() {
        assert_eq!(is_found(fault.follow), !ON_TEXTS.contains(&fault.name), "{}", fault.name);
    }
}

/// Those that no page shows, on texts.
#[test]
fn wrong_where_nothing_is_listed() {
    for name in ON_TEXTS {
        let fault = Fault::by_name(name).expect("a fault");
        let says = |follow: Follow, pair: &Pair| (follow.differences)(&pair.original, &pair.copy);
        let found = every_pair(b"a=\n", 3).any(|p| says(fault.follow, &p) != says(ENGINE, &p));
        assert!(found, "missed: {}", name);
    }
}

/// What is made short still differs: one step where one is enough, few requests, little on pages.
#[test]
fn runs_made_short() {
    for (name, sheets, bytes) in [
        ("goes-on-from-computed", 5, 800),
        ("refused-ends-the-run", 3, 600),
        ("mark-missing", 3, 500),
        ("told-line-not-shown", 1, 80),
        ("usage-for-one-page", 1, 200),
        ("written-alone-left-out", 3, 1_000),
    ] {
        let program = Program::Engine(Fault::by_name(name).expect("a fault").follow);
        let found = run(&program, SEED, CI_TRIPLES, &mut Count::default());
        let found: Option<Difference> = found.expect("an engine always runs");
        let difference = found.unwrap_or_else(|| panic!("missed: {}", name));
        let short = shortened(&program, difference).expect("an engine always runs");
        let size = |sheet: &Sheet| match &sheet.content {
            Content::Text(text) => text.len(),
            _ => 0,
        };
        let total: usize = short.run.sheets.iter().map(size).sum();
        let said = report(&program, &short).expect("an engine always runs");
        assert!(short.run.sheets.len() == sheets && total < bytes, "{}: {}", name, said);
        assert!(said.contains("the other prints:\n") && said.contains("\n  > "), "{}", said);
    }
}
