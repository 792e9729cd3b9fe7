//! The library against the engine, in short; `agree` does it at length.

use board::{desk, pages, tables, text};

#[test]
fn wrong_lengths() {
    assert_eq!(tables::lengths(), Ok(()));
}

#[test]
fn one_line_on_any_tables() {
    let mut count = tables::Count::default();
    let compared = tables::agree(2, 10_000, &mut count);
    assert!(compared.is_ok(), "{}", compared.unwrap_err());
    assert_eq!(count.sum(), 10_000);
}

#[test]
fn many_ticks_on_any_tables() {
    let mut count = tables::Count::default();
    let compared = tables::agree_ticks(2, 10_000, &mut count);
    assert!(compared.is_ok(), "{}", compared.unwrap_err());
    assert_eq!(count.sum(), 10_000);
}

#[test]
fn whole_texts() {
    let mut count = text::Count::default();
    let compared = text::agree(1..61, 100, &mut count);
    assert!(compared.is_ok(), "{}", compared.unwrap_err());
}

#[test]
fn pages_read_back() {
    let mut count = pages::Count::default();
    let compared = pages::lengths(&mut count).and_then(|()| pages::agree(2, 10_000, &mut count));
    assert!(compared.is_ok(), "{}", compared.unwrap_err());
    assert!(count.sums().iter().all(|times| *times > 1_500));
}

#[test]
fn texts_at_the_desk() {
    let mut count = desk::Count::default();
    let compared = desk::lengths().and_then(|()| desk::agree(2, 5_000, &mut count));
    assert!(compared.is_ok(), "{}", compared.unwrap_err());
    assert!(count.tally.rows().iter().all(|times| *times > 300), "{}", count.print());
}
