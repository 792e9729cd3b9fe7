//! Every wrong engine is told from the right one within the seeds of the CI, but for those that show
//! on tables put by hand alone (`faults/tests/hand.rs`), on pages (`pages.rs`), on pairs of texts
//! (`texts.rs`) and on runs of sheets (`follow.rs`).

use comparer::corners::of_ticks;
use comparer::differ::{begins_fresh, differs, fixed_inputs, run, shortest, Count, Failure};
use comparer::other::Other;
use comparer::report::report;
use comparer::{CI_LINES, CI_SEEDS};
use engine::sheet;
use engine::sheet::lines;
use faults::{together, Fault, Shown, FAULTS, ON_TABLES};

/// No script has more than a few years, or comes near the ceiling; some of the fixed inputs do.
const BY_FIXED_INPUT: [(&str, &str); 16] = [
    ("ticks-clock-in-32-bits", DAYS),
    ("leap-2200-leap", TO_THE_CEILING),
    ("leap-every-second-century", TO_THE_CEILING),
    ("leap-2300-leap", YEARS),
    ("leap-2400-common", YEARS),
    ("ceiling-passed", TO_THE_CEILING),
    ("ticks-ceiling-without-n", TO_THE_CEILING),
    ("ticks-ceiling-refused", TO_THE_CEILING),
    ("ticks-ceiling-passed", TO_THE_CEILING),
    ("ticks-in-part", TO_THE_CEILING),
    ("ticks-up-to-ceiling", TO_THE_CEILING),
    ("ticks-11-tells-room", TO_THE_CEILING),
    ("ticks-11-before-3", TO_THE_CEILING),
    ("ticks-0-at-ceiling", TO_THE_CEILING),
    ("ticks-due-cut-at-ceiling", TO_THE_CEILING),
    ("ticks-beyond-ceiling-gone", TO_THE_CEILING),
];

const MOMENTS: &str = "many ticks, every moment";
const DAYS: &str = "many ticks, days and years";
const TO_THE_CEILING: &str = "many ticks, up to the ceiling";
const YEARS: &str = "years, up to the ceiling";

fn first_failure(other: &Other) -> Option<Failure> {
    run(other, CI_SEEDS, CI_LINES, &mut Count::default()).expect("a mutant always runs")
}

#[test]
fn each_mutant_is_found_and_its_script_shrinks() {
    assert!(FAULTS.iter().filter(|fault| fault.shown == Shown::OnConsole).count() >= 259);
    for fault in FAULTS {
        let elsewhere = ON_TABLES.contains(&fault.name) || fault.shown != Shown::OnConsole;
        if elsewhere || BY_FIXED_INPUT.iter().any(|(name, _)| *name == fault.name) {
            continue;
        }
        let other = Other::Engine(fault.sheet);
        let failure = first_failure(&other).unwrap_or_else(|| panic!("missed: {}", fault.name));
        assert!(failure.fresh, "{}: no script shows it", fault.name);
        shrinks(fault, &failure);
    }
}

fn shrinks(fault: &Fault, failure: &Failure) {
    let other = Other::Engine(fault.sheet);
    let input = shortest(&other, failure).expect("a mutant always runs");
    assert_eq!(differs(&other, &input), Ok(true), "{}", fault.name);
    assert!(begins_fresh(&input), "{}", fault.name);
    // Lines that are alike, one behind another, are shown once: a year is 31 such lines and more.
    let mut shown = lines(&input);
    shown.dedup();
    assert!(shown.len() <= 25, "{}: {} lines", fault.name, shown.len());
    let text = report(&input, &other.print(&input).expect("a mutant always runs"));
    assert!(text.contains("  > "), "{}", text);
}

/// Each kind of fixed input finds what it was made for, without any script.
#[test]
fn fixed_inputs_find_their_mutants() {
    let right: Vec<_> =
        fixed_inputs().into_iter().map(|(about, input)| (about, sheet(&input), input)).collect();
    for (name, about) in [
        ("at-letter", "every byte as a line and in a name"),
        ("long-line-in-parts", "very long lines"),
        ("offset-4096", "numbers at their bounds"),
        ("offset-4095-refused", "numbers at their bounds"),
        ("multiple-4096", "numbers at their bounds"),
        ("multiple-4095-refused", "numbers at their bounds"),
        ("hour-too-short", "numbers at their bounds"),
        ("three-passes", "every way to wake"),
        ("ss-waiter-at-once", "every way to wake"),
        ("ss-twice-takes-back", "every way to wake"),
        ("ss-twice-refused", "every way to wake"),
        ("go-schedules-marked", "every way to wake"),
        ("pr-loses-mark", "every way to wake"),
        ("tick-loses-mark", "every way to wake"),
        ("exec12-loses-mark", "every way to wake"),
        ("mark-left-at-waking", "every way to wake"),
        ("mark-left-at-ending", "every way to wake"),
        ("mark-met-by-next", "every way to wake"),
        ("mark-loaded", "every way to wake"),
        ("marked-into-chain-1", "every way to wake"),
        ("marked-not-counted", "every way to wake"),
        ("marked-before-equals", "every way to wake"),
        ("marked-by-time-of-ss", "every way to wake"),
        ("marked-why-kept", "every way to wake"),
        ("suspend-0-written", "how input begins and ends"),
        ("suspend-before-interval", "every way to wake"),
        ("sum-in-32-bits", "fields of every length"),
        ("wraps-32", "numbers at their bounds"),
        ("eleven-digits", "fields of every length"),
        ("over-30-bytes", "fields of every length"),
        ("of-46-bytes", "fields of every length"),
        ("colon-digit", "every byte at every place"),
        ("slash-digit", "every byte at every place"),
        ("digit-first", "every byte at every place"),
        ("seconds-run-on", DAYS),
        ("minutes-run-on", DAYS),
        ("hours-lost", DAYS),
        ("hours-run-on", DAYS),
        ("ticks-100000000-refused", "numbers at their bounds"),
        ("ticks-100000001-taken", "numbers at their bounds"),
        ("ticks-0-done", "numbers at their bounds"),
        ("ticks-in-32-bits", "numbers at their bounds"),
        ("ticks-empty-number", TO_THE_CEILING),
        ("ticks-leading-zero", TO_THE_CEILING),
        ("ticks-of-eleven-digits", "fields of every length"),
        ("days-run-on", DAYS),
        ("leap-of-start-year", DAYS),
        ("year-of-365-days", DAYS),
        ("day-mod-365", DAYS),
        ("last-day-of-four-years", DAYS),
        ("leap-every-fourth", TO_THE_CEILING),
        ("leap-2000-common", TO_THE_CEILING),
        ("leap-2100-leap", TO_THE_CEILING),
        ("last-day-of-four-centuries", YEARS),
        ("start-year-moves-on", TO_THE_CEILING),
        ("current-year-written", YEARS),
        ("year-written-once-it-is-another", DAYS),
        ("year-1975-written", "how input begins and ends"),
        ("year-not-written", "how input begins and ends"),
        ("fresh-keeps-year", "how input begins and ends"),
        ("fresh-year-1969", "how input begins and ends"),
        ("fresh-year-2100", "how input begins and ends"),
        ("fresh-year-1970-refused", "numbers at their bounds"),
        ("fresh-year-2099-refused", "numbers at their bounds"),
        ("fresh-year-in-16-bits", "numbers at their bounds"),
        ("fresh-year-in-32-bits", "numbers at their bounds"),
        ("fresh-year-as-13", "how input begins and ends"),
        ("fresh-empty-year", "numbers at their bounds"),
        ("fresh-fifth-field", "numbers at their bounds"),
        ("fresh-year-leading-zero", "numbers at their bounds"),
        ("refused-fresh-takes-year", "how input begins and ends"),
        ("of-49-bytes", "fields of every length"),
    ]
    .into_iter()
    .chain(BY_FIXED_INPUT)
    {
        let wrong = Fault::by_name(name).expect("a fault").sheet;
        let found = right.iter().find(|(_, output, input)| wrong(input) != *output);
        assert_eq!(found.map(|(about, _, _)| *about), Some(about), "{}", name);
    }
}

/// The input with every moment finds, by itself, all that is wrong in how many ticks go from due to
/// due, but what shows near the ceiling alone.
#[test]
fn every_moment_finds_its_mutants() {
    let [(about, input), ..] = of_ticks();
    assert_eq!(about, MOMENTS);
    let right = sheet(&input);
    let elsewhere = |name: &str| BY_FIXED_INPUT.iter().any(|(other, _)| *other == name);
    let mut found = 0;
    for fault in FAULTS.iter().filter(|fault| fault.name.starts_with("ticks-")) {
        let differs = (fault.sheet)(&input) != right;
        found += usize::from(differs);
        let forms = FORMS_OF_TICKS.contains(&fault.name);
        assert_eq!(differs, !forms && !elsewhere(fault.name), "{}", fault.name);
    }
    assert!(found >= 40, "{}", found);
}

/// Wrong in the numbers and forms that the line takes, which are right ones there.
const FORMS_OF_TICKS: [&str; 10] = [
    "ticks-100000000-refused",
    "ticks-100000001-taken",
    "ticks-0-done",
    "ticks-0-is-one",
    "ticks-bounds-as-11",
    "ticks-in-32-bits",
    "ticks-empty-number",
    "ticks-more-fields",
    "ticks-leading-zero",
    "ticks-of-eleven-digits",
];

/// The right engine passes, over the same seeds and through the same code: what all wrong ones that
/// are built together have in common.
#[test]
fn the_right_engine_passes() {
    let mut count = Count::default();
    let found = run(&Other::Engine(together::sheet), CI_SEEDS, CI_LINES, &mut count);
    assert!(found.expect("the engine always runs").is_none());
    assert_eq!(count.scripts, CI_SEEDS.end - CI_SEEDS.start);
}

/// Scripts too short to have a second FRESH in them: only a batch shows what FRESH left behind.
#[test]
fn what_outlives_fresh_is_found_by_batches() {
    let other = Other::Engine(Fault::by_name("fresh-keeps-clock").expect("a fault").sheet);
    let found = run(&other, 1..2_000, 4, &mut Count::default());
    let failure = found.expect("a mutant always runs").expect("a difference");
    assert!(failure.origin.starts_with("the batch"), "{}", failure.origin);
    let input = shortest(&other, &failure).expect("a mutant always runs");
    assert_eq!(lines(&input).len(), 4, "{}", report(&input, b""));
    assert!(begins_fresh(&input));
}

#[test]
fn names_of_faults_are_distinct() {
    for fault in FAULTS {
        let named = FAULTS.iter().filter(|other| other.name == fault.name);
        assert_eq!(named.count(), 1, "{}", fault.name);
    }
    assert!(Fault::by_name("none").is_none());
    assert!(ON_TABLES.iter().all(|name| Fault::by_name(name).is_some()));
}
