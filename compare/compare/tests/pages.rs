//! A page reader on pages: the right one is right by what the writer writes, and each wrong one is
//! told from it.

use comparer::absurd::EXAMPLE;
use comparer::make;
use comparer::pages::{Kind, Pages};
use comparer::prng::Prng;
use comparer::reading::{self, class, engine_reads, first_difference, report, Count, CI_PAGES};
use engine::raw::Raw;
use engine::{read, Answer, Engine, Value};
use faults::{together_reads, Shown, FAULTS};

const SEED: u64 = 1;

/// Writing what was read gives the page; what is refused comes back as the smallest tables.
#[test]
fn writing_what_was_read() {
    let smallest = Raw::of(&Engine::smallest());
    for (what, page) in reading::pages(SEED, 20_000) {
        let (raw, answer) = read(&page);
        if answer == Answer::new(0, 0) {
            let engine = raw.engine().unwrap_or_else(|| panic!("{}: not sound", what));
            assert!(engine.page_bytes() == page, "{}: {}", what, String::from_utf8_lossy(&page));
            assert_eq!(Raw::of(&engine), raw);
        } else {
            assert_eq!((answer.number, &raw), (15, &smallest), "{}", what);
        }
    }
}

/// Reading what was written gives the tables.
#[test]
fn reading_what_was_written() {
    let mut pages = Pages::new(SEED);
    for kind in [Kind::Reached, Kind::Unreached] {
        for _ in 0..5_000 {
            let raw = pages.sound(kind);
            let page = raw.engine().expect("sound tables").page_bytes();
            assert_eq!(read(&page), (raw, Answer::new(0, 0)));
        }
    }
}

/// The lines before the one that is told are well formed by themselves, each of them: the page cut
/// behind any of them stops short there. And so are all lines where none is told.
#[test]
fn the_line_that_is_told() {
    for (_, page) in Pages::new(SEED).take(3_000) {
        let answer = read(&page).1;
        let ends: Vec<usize> = (0..page.len()).filter(|at| page[*at] == b'\n').collect();
        let whole = match answer.value {
            Value::Number(0) => ends.len() - 1,
            Value::Number(line) => (line as usize - 1).min(ends.len()),
            Value::Time(_) => panic!("no time was asked"),
        };
        for (place, end) in ends[..whole].iter().enumerate() {
            let front = read(&page[..=*end]).1;
            let last = page[..=*end].ends_with(b"\nend=page\n");
            assert!(last || front == Answer::new(15, place as u64 + 2), "{:?}", front);
        }
    }
}

/// Each answer comes up often, and of every kind of page there are some.
#[test]
fn every_answer_comes_up() {
    let mut count = Count::default();
    for (kind, page) in Pages::new(SEED).take(10_000) {
        count.add(kind, &page, read(&page).1);
    }
    assert!(count.sums().iter().all(|times| *times >= 1_500), "{}", count.print());
    assert!(count.marked().iter().all(|times| *times >= 500), "{}", count.print());
    assert!(count.dated()[0].iter().all(|times| *times >= 500), "{}", count.print());
    let [_, usual, other] = count.dated();
    assert!(usual[1] >= 30 && usual[2] >= 50, "{}", count.print());
    assert!(other[1] >= 100 && other[2] >= 100, "{}", count.print());
    assert_eq!([usual[0], other[0]], [0, 0], "{}", count.print());
    assert_eq!(count.print().lines().count(), 23, "{}", count.print());
    // The kinds that are to stay well formed mostly are, and two tables in one page are met.
    let mut pages = Pages::new(SEED);
    let mut twisted = [0; 3];
    for _ in 0..1_000 {
        twisted[class(read(&pages.page(Kind::Twisted)).1)] += 1;
    }
    assert!(twisted[1] < 200 && twisted[0] > 150 && twisted[2] > 400, "{:?}", twisted);
}

#[test]
fn the_same_pages_from_a_seed() {
    let pages = |seed| Pages::new(seed).take(300).map(|(_, page)| page).collect::<Vec<_>>();
    assert_eq!(pages(7), pages(7));
    assert_ne!(pages(7), pages(8));
}

/// Two sound tables have the same page only if they are the same tables.
#[test]
fn one_page_for_each_tables() {
    let mut prng = Prng::new(SEED);
    let mut seen: Vec<(Vec<u8>, Raw)> = Vec::new();
    for _ in 0..5_000 {
        let raw = make::unreached(&mut prng);
        seen.push((raw.engine().expect("sound tables").page_bytes(), raw));
    }
    seen.sort_by(|one, two| one.0.cmp(&two.0));
    assert!(seen.windows(2).all(|two| (two[0].0 == two[1].0) == (two[0].1 == two[1].1)));
}

#[test]
fn each_wrong_reader_is_found() {
    let all: Vec<_> = reading::pages(SEED, CI_PAGES)
        .map(|(what, page)| {
            let right = engine_reads(&page);
            (what, page, right)
        })
        .collect();
    let trials = || all.iter().map(|(what, page, right)| (*what, page.as_slice(), right.clone()));
    // What all wrong ones that are built together have in common is right.
    assert!(first_difference(together_reads, trials()).is_none());
    let wrong: Vec<_> = FAULTS.iter().filter(|fault| fault.shown == Shown::OnPages).collect();
    assert!(wrong.len() >= 115, "{}", wrong.len());
    for fault in wrong {
        // By pages of the seed alone.
        let found = first_difference(fault.read, trials().take(CI_PAGES));
        let found = found.unwrap_or_else(|| panic!("missed: {}", fault.name));
        assert!(report(&found).contains("the other says:"));
    }
}

/// The example is a page, and those engines that are wrong elsewhere read it too.
#[test]
fn the_example_is_read() {
    assert_eq!(read(EXAMPLE.as_bytes()).1, Answer::new(0, 0));
    let right = engine_reads(EXAMPLE.as_bytes()).0;
    for fault in FAULTS.iter().filter(|fault| fault.shown != Shown::OnPages) {
        assert_eq!((fault.read)(EXAMPLE.as_bytes()).0, right, "{}", fault.name);
    }
}
