//! Whether the library and the engine agree: see `USAGE`.

#![forbid(unsafe_code)]

use board::{desk, pages, tables, text, words};
use comparer::{CI_LINES, CI_SEEDS};
use std::process::ExitCode;

const USAGE: &str = "usage:
  agree tables [--count N] [--seed S]
  agree ticks [--count N] [--seed S]
  agree text [--seeds A..B] [--lines N]
  agree pages [--count N] [--seed S]
  agree desk [--count N] [--seed S]
Seeds A..B are A and up, below B. Status 0: no difference; 1: a difference; 2: not run.";

fn main() -> ExitCode {
    let words: Vec<String> = std::env::args().skip(1).collect();
    let ran = match words.split_first() {
        Some((first, rest)) if first == "tables" => run_tables(rest, tables::agree),
        Some((first, rest)) if first == "ticks" => run_tables(rest, tables::agree_ticks),
        Some((first, rest)) if first == "text" => run_text(rest),
        Some((first, rest)) if first == "pages" => run_pages(rest),
        Some((first, rest)) if first == "desk" => run_desk(rest),
        _ => Err(USAGE.to_string()),
    };
    match ran {
        Ok(Ok(summary)) => {
            print!("{}", summary);
            ExitCode::SUCCESS
        }
        Ok(Err(report)) => {
            print!("{}", report);
            ExitCode::from(1)
        }
        Err(message) => {
            eprintln!("{}", message);
            ExitCode::from(2)
        }
    }
}

/// A summary, or the report of a difference.
type Verdict = Result<String, String>;

/// How many, and from which seed.
fn count_and_seed(rest: &[String]) -> Result<(u64, u64), String> {
    let (mut count, mut seed) = (100_000, 1);
    for (option, value) in words::pairs(rest, USAGE)? {
        match option.as_str() {
            "--count" => count = words::whole(&value)?,
            "--seed" => seed = words::whole(&value)?,
            _ => return Err(USAGE.to_string()),
        }
    }
    Ok((count, seed))
}

/// So many cases of a seed.
type Agree = fn(u64, u64, &mut tables::Count) -> Result<(), String>;

fn run_tables(rest: &[String], agree: Agree) -> Result<Verdict, String> {
    let (count, seed) = count_and_seed(rest)?;
    let mut total = tables::Count::default();
    let compared = tables::lengths().and_then(|()| agree(seed, count, &mut total));
    Ok(compared.map(|()| format!("{}\n{} tables: no difference\n", total.print(), total.sum())))
}

fn run_text(rest: &[String]) -> Result<Verdict, String> {
    let (mut seeds, mut lines) = (CI_SEEDS, CI_LINES);
    for (option, value) in words::pairs(rest, USAGE)? {
        match option.as_str() {
            "--seeds" => seeds = words::range(&value)?,
            "--lines" => lines = words::whole(&value)? as usize,
            _ => return Err(USAGE.to_string()),
        }
    }
    let mut count = text::Count::default();
    let compared = text::agree(seeds, lines, &mut count);
    Ok(compared.map(|()| {
        let text::Count { texts, lines, buffers } = count;
        format!("{} texts, {} lines, {} buffers: no difference\n", texts, lines, buffers)
    }))
}

fn run_pages(rest: &[String]) -> Result<Verdict, String> {
    let (count, seed) = count_and_seed(rest)?;
    let mut total = pages::Count::default();
    let compared = pages::lengths(&mut total).and_then(|()| pages::agree(seed, count, &mut total));
    Ok(compared.map(|()| {
        let [read, line, none] = total.sums();
        let all = read + line + none;
        let sums = format!("{} read, {} with 15 and a line, {} with 15 and 0", read, line, none);
        format!("{}\n{} pages, {}: no difference\n", total.print(), all, sums)
    }))
}

fn run_desk(rest: &[String]) -> Result<Verdict, String> {
    let (count, seed) = count_and_seed(rest)?;
    let mut total = desk::Count::default();
    let compared = desk::lengths().and_then(|()| desk::agree(seed, count, &mut total));
    Ok(compared.map(|()| {
        let (pairs, calls) = (total.tally.pairs(), total.calls + total.fixed);
        format!("{}\n{} pairs, {} calls: no difference\n", total.print(), pairs, calls)
    }))
}
