//! How quick the library is beside the engine, on the same input in one process: see `USAGE`.

#![forbid(unsafe_code)]

use board::clock::{race, Contestant};
use board::looks::{self, What};
use board::pack::{formed, pack, AT_LINKS};
use board::tables::{reply_of, Case, Cases, Kind};
use board::{ffi, load, natural, words};
use comparer::texts::Pair;
use engine::raw::Raw;
use engine::sheet::{lines, print_line};
use engine::ticks::MOST_TICKS;
use engine::Engine;
use std::process::ExitCode;

const USAGE: &str = "usage:
  speed [--rounds N]
Status 0: measured; 1: the two sides differ; 2: not run.";

fn main() -> ExitCode {
    let words: Vec<String> = std::env::args().skip(1).collect();
    let rounds = match rounds(&words) {
        Ok(rounds) => rounds,
        Err(message) => {
            eprintln!("{}", message);
            return ExitCode::from(2);
        }
    };
    match rows(rounds).and_then(|()| many_ticks(rounds)).and_then(|()| growth(rounds)) {
        Ok(()) => ExitCode::SUCCESS,
        Err(message) => {
            println!("{}", message);
            ExitCode::from(1)
        }
    }
}

fn rounds(words: &[String]) -> Result<usize, String> {
    let mut rounds = 9;
    for (option, value) in words::pairs(words, USAGE)? {
        match option.as_str() {
            "--rounds" => rounds = words::whole(&value)?.max(1) as usize,
            _ => return Err(USAGE.to_string()),
        }
    }
    Ok(rounds)
}

/// The library on a text.
struct Ours<'a> {
    text: &'a [u8],
    out: Vec<u8>,
}

impl<'a> Ours<'a> {
    fn new(text: &'a [u8]) -> Ours<'a> {
        // With no buffer at all it still tells how long one has to be.
        let size = ffi::run(text, &mut []).map_or(0, |counts| counts.all) as usize;
        Ours { text, out: vec![0; size] }
    }
}

impl Contestant for Ours<'_> {
    fn prepare(&mut self) {
        self.out.fill(0);
    }

    fn work(&mut self) -> u64 {
        ffi::run(self.text, &mut self.out).map_or(0, |counts| counts.all)
    }
}

/// The engine on a text.
struct Rust<'a> {
    text: &'a [u8],
    out: Vec<u8>,
    tested: bool,
}

impl<'a> Rust<'a> {
    fn new(text: &'a [u8], tested: bool) -> Rust<'a> {
        let mut rust = Rust { text, out: Vec::new(), tested };
        rust.work();
        rust
    }
}

impl Contestant for Rust<'_> {
    fn prepare(&mut self) {
        self.out.fill(0);
    }

    fn work(&mut self) -> u64 {
        natural::run(self.text, &mut self.out, self.tested) as u64
    }
}

/// Nanoseconds a line on each text: the library, the engine with the test, the engine without it.
/// All of them run in the same rounds.
fn text_times(rounds: usize, texts: &[&[u8]]) -> Result<Vec<[f64; 3]>, String> {
    let mut sides: Vec<Box<dyn Contestant + '_>> = Vec::new();
    for text in texts {
        let (mut ours, mut rust) = (Ours::new(text), Rust::new(text, true));
        ours.work();
        rust.work();
        if ours.out != rust.out {
            return Err(String::from("the two sides print different bytes; run `agree text`"));
        }
        sides.push(Box::new(ours));
        sides.push(Box::new(rust));
        sides.push(Box::new(Rust::new(text, false)));
    }
    let times = race(rounds, &mut sides);
    let counts = texts.iter().map(|text| lines(text).len() as f64);
    let a_line = |(times, count): (&[f64], f64)| [0, 1, 2].map(|side| times[side] / count);
    Ok(times.chunks(3).zip(counts).map(a_line).collect())
}

fn heading() {
    println!(
        "Speed: the engine's time divided by the library's; above 1.00 the library is quicker.\n\
         \"tested\" is the engine with a soundness test before every line, as the library has it,\n\
         \"untested\" the engine without any. Where a page is read or two texts are looked at, \"ns a\n\
         line\" are those of a call.\n"
    );
    println!("{:32}{:>18}{:>32}", "", "speed against", "ns a line, of this machine");
    let sides = ["tested", "untested"];
    println!(
        "{:32}{:>8}{:>10}{:>12}{:>10}{:>10}",
        "", sides[0], sides[1], "library", sides[0], sides[1]
    );
}

fn rows(rounds: usize) -> Result<(), String> {
    heading();
    let texts = [
        ("mixed console lines", load::mixed(200_000)),
        ("TICK, 32 timers", load::ticks(100_000)),
        ("a winter, 16 lines of ticks", load::winter()),
        ("32 timers of 1, TICK,100000000", load::every_tick()),
        ("PAGE, full tables", load::pages(3_000)),
        ("claims, 256 tracks in fragments", load::claims(256, 50_000)),
    ];
    for (name, text) in &texts {
        let [ours, tested, untested] = text_times(rounds, &[text])?[0];
        println!(
            "{:32}{:>8.2}{:>10.2}{:>12.0}{:>10.0}{:>10.0}",
            name,
            tested / ours,
            untested / ours,
            ours,
            tested,
            untested
        );
    }
    let cases = given();
    calls(rounds, "soundness of given tables", &cases, sounds)?;
    calls(rounds, "one line on given tables", &cases, asks)?;
    pages(rounds, "a full page read", &load::full_page())?;
    pages(rounds, "a small page read", &load::small_page())?;
    look(rounds, "list, two full pages", What::List, &load::same_pages())?;
    look(rounds, "list, one figure changed", What::List, &load::one_figure())?;
    look(rounds, "find the last key, full page", What::Find(b"end"), &load::same_pages())?;
    look(rounds, "list, 10,000 lines", What::List, &load::same_lines(10_000, 10_000))?;
    look(rounds, "list, 10,000, first missing", What::List, &load::first_missing(10_000, 10_000))
}

/// One line of many ticks on tables in bytes, and one tick on the same.
fn many_ticks(rounds: usize) -> Result<(), String> {
    println!(
        "\nMany ticks in one line, on tables in bytes. \"of a TICK\" is the time of the line as a"
    );
    println!("multiple of that of a bare TICK on the same tables, each time by the library alone.");
    println!("{:32}{:>8}{:>12}{:>10}{:>12}", "", "ratio", "library ns", "engine ns", "of a TICK");
    let most = format!("TICK,{}", MOST_TICKS);
    for (name, line, text) in [
        ("a winter's tables", most.as_str(), load::winter_tables()),
        ("32 timers of 1", most.as_str(), load::every_tick_tables()),
        ("an idle night, TICK,4320000", "TICK,4320000", load::night_tables()),
    ] {
        let many = [tables_after(&text, line)];
        let single = [tables_after(&text, "TICK")];
        let mut sides = asks(&many);
        sides.extend(asks(&single));
        if sides[0].work() != sides[1].work() || sides[2].work() != sides[3].work() {
            return Err(String::from("the two sides answer differently; run `agree ticks`"));
        }
        let times = race(rounds, &mut sides);
        let (ours, rust, tick) = (times[0], times[1], times[2]);
        let (ratio, of_tick) = (rust / ours, ours / tick);
        let digits = if ratio < 0.1 { 6 } else { 2 };
        println!("{:32}{:>8.*}{:>12.0}{:>10.0}{:>12.2}", name, digits, ratio, ours, rust, of_tick);
    }
    Ok(())
}

/// The tables that a text leaves, with a line for them.
fn tables_after(text: &[u8], line: &str) -> Case {
    let mut engine = Engine::smallest();
    lines(text).into_iter().for_each(|line| drop(print_line(&mut engine, line)));
    Case {
        kind: Kind::Reached,
        tables: pack(&Raw::of(&engine)).to_vec(),
        line: line.as_bytes().to_vec(),
        page: Vec::new(),
        answer: vec![0; ffi::ANSWER],
    }
}

/// Sound tables, reached and not, each with a line.
fn given() -> Vec<Case> {
    let mut cases = Cases::new(1);
    let kinds = [Kind::Reached, Kind::Unreached];
    let mut list: Vec<Case> = (0..2_000).map(|k| cases.case(kinds[k % 2])).collect();
    for case in &mut list {
        case.page = vec![0; ffi::PAGE];
    }
    list
}

fn calls(
    rounds: usize,
    name: &str,
    cases: &[Case],
    sides: fn(&[Case]) -> Vec<Box<dyn Contestant + '_>>,
) -> Result<(), String> {
    let mut sides = sides(cases);
    if sides[0].work() != sides[1].work() {
        return Err(String::from("the two sides answer differently; run `agree tables`"));
    }
    let times = race(rounds, &mut sides);
    let count = cases.len() as f64;
    let (ours, rust) = (times[0] / count, times[1] / count);
    println!("{:32}{:>8.2}{:>10}{:>12.0}{:>10.0}{:>10}", name, rust / ours, "-", ours, rust, "-");
    Ok(())
}

/// One side of a call on given bytes: what it makes of a case, as a number. The buffers are for the
/// tables after it and for the page.
struct Call<'a> {
    cases: &'a [Case],
    tables: Vec<u8>,
    page: Vec<u8>,
    call: fn(&Case, &mut [u8], &mut [u8]) -> u64,
}

impl Contestant for Call<'_> {
    fn prepare(&mut self) {
        self.page.fill(0);
    }

    fn work(&mut self) -> u64 {
        let mut sum: u64 = 0;
        for case in self.cases {
            let done = (self.call)(case, &mut self.tables, &mut self.page);
            sum = sum.wrapping_mul(31).wrapping_add(done);
        }
        sum
    }
}

fn call<'a>(
    cases: &'a [Case],
    call: fn(&Case, &mut [u8], &mut [u8]) -> u64,
) -> Box<dyn Contestant + 'a> {
    Box::new(Call { cases, tables: cases[0].tables.clone(), page: vec![0; ffi::PAGE], call })
}

fn sounds(cases: &[Case]) -> Vec<Box<dyn Contestant + '_>> {
    let ours =
        |case: &Case, _: &mut [u8], _: &mut [u8]| ffi::sound(&case.tables).map_or(2, u64::from);
    let rust = |case: &Case, _: &mut [u8], _: &mut [u8]| {
        u64::from(formed(&case.tables).map_or(false, |raw| raw.sound()))
    };
    vec![call(cases, ours), call(cases, rust)]
}

fn asks(cases: &[Case]) -> Vec<Box<dyn Contestant + '_>> {
    let ours = |case: &Case, tables: &mut [u8], page: &mut [u8]| {
        tables.copy_from_slice(&case.tables);
        sum(ffi::ask(tables, &case.line, page), tables)
    };
    let rust = |case: &Case, tables: &mut [u8], page: &mut [u8]| {
        tables.copy_from_slice(&case.tables);
        formed(tables).map_or(u64::MAX, |raw| {
            let (after, answer) = raw.line(&case.line, page);
            tables.copy_from_slice(&pack(&after));
            sum(reply_of(answer), tables)
        })
    };
    vec![call(cases, ours), call(cases, rust)]
}

/// A few numbers of what a line leaves: to see that both did the same is the task of `agree`.
fn sum(reply: ffi::Reply, tables: &[u8]) -> u64 {
    reply.number + reply.values[0] + u64::from(tables[0]) + u64::from(tables[AT_LINKS + 1])
}

/// How often a page is read in one piece of work.
const READINGS: usize = 100;

/// One side of the reading of a page into packed tables.
struct Reading<'a> {
    page: &'a [u8],
    tables: Vec<u8>,
    read: fn(&[u8], &mut [u8]) -> ffi::Reply,
}

impl Contestant for Reading<'_> {
    fn prepare(&mut self) {
        self.tables.fill(0);
    }

    fn work(&mut self) -> u64 {
        let mut total: u64 = 0;
        for _ in 0..READINGS {
            let reply = (self.read)(self.page, &mut self.tables);
            total = total.wrapping_mul(31).wrapping_add(sum(reply, &self.tables));
        }
        total
    }
}

/// Nanoseconds a page.
fn pages(rounds: usize, name: &str, page: &[u8]) -> Result<(), String> {
    let rust = |page: &[u8], tables: &mut [u8]| {
        let (raw, answer) = engine::read(page);
        tables.copy_from_slice(&pack(&raw));
        reply_of(answer)
    };
    let side = |read: fn(&[u8], &mut [u8]) -> ffi::Reply| {
        Box::new(Reading { page, tables: vec![0; ffi::TABLES], read })
    };
    let (mut ours, mut theirs) = (side(ffi::read), side(rust));
    if ours.work() != theirs.work() || ours.tables != theirs.tables {
        return Err(String::from("the two sides read differently; run `agree pages`"));
    }
    let mut sides: Vec<Box<dyn Contestant + '_>> = vec![ours, theirs];
    let times = race(rounds, &mut sides);
    let (ours, rust) = (times[0] / READINGS as f64, times[1] / READINGS as f64);
    println!("{:32}{:>8.2}{:>10}{:>12.0}{:>10.0}{:>10}", name, rust / ours, "-", ours, rust, "-");
    Ok(())
}

/// Nanoseconds a call.
fn look(rounds: usize, name: &str, what: What, pair: &Pair) -> Result<(), String> {
    let [ours, rust] = looks::times(rounds, what, &[pair])?[0];
    let speed = rust / ours;
    // One that grows with the square of the lines may be far below.
    let digits = if speed < 0.1 { 4 } else { 2 };
    println!("{:32}{:>8.*}{:>10}{:>12.0}{:>10.0}{:>10}", name, digits, speed, "-", ours, rust, "-");
    Ok(())
}

/// How the time of a line grows: against the first column.
fn growth(rounds: usize) -> Result<(), String> {
    println!("\nGrowth: the time of a line as a multiple of that in the first column.");
    let programs = [1, 8, 16, 32].map(|n| (n, load::by_programs(n, 20_000)));
    grow(rounds, "programs", &programs)?;
    let tracks = [16, 64, 256].map(|n| (n, load::by_tracks(n, 20_000)));
    grow(rounds, "tracks", &tracks)?;
    let lines = [1_000, 10_000, 100_000].map(|n| (n, load::by_programs(8, n)));
    grow(rounds, "lines", &lines)?;
    grow_lists(rounds, "lines listed, a key for each", |lines| lines)?;
    grow_lists(rounds, "lines listed, seven keys", |_| 7)
}

/// The time of a list by the lines of two texts, the same in both, and without the copy's first.
fn grow_lists(rounds: usize, name: &str, keys: fn(usize) -> usize) -> Result<(), String> {
    let counts = [100, 1_000, 10_000];
    let mut pairs = counts.map(|lines| load::same_lines(lines, keys(lines))).to_vec();
    pairs.push(load::first_missing(10_000, keys(10_000)));
    let columns = looks::times(rounds, What::List, &pairs.iter().collect::<Vec<_>>())?;
    let numbers: String = counts.iter().map(|lines| format!("{:>10}", lines)).collect();
    println!("\n{:32}{}{:>24}", name, numbers, "10000, first missing");
    for (side, title) in ["library", "engine"].iter().enumerate() {
        // Of the last pair as of the one before it.
        let lines = [counts[0], counts[1], counts[2], counts[2]].map(|count| count as f64);
        let a_line = |place: usize| columns[place][side] / lines[place];
        let ratios = [0, 1, 2].map(|place| format!("{:>10.2}", a_line(place) / a_line(0)));
        println!("  {:30}{}{:>24.2}", title, ratios.concat(), a_line(3) / a_line(0));
    }
    Ok(())
}

fn grow(rounds: usize, name: &str, texts: &[(usize, Vec<u8>)]) -> Result<(), String> {
    let list: Vec<&[u8]> = texts.iter().map(|(_, text)| text.as_slice()).collect();
    let columns = text_times(rounds, &list)?;
    let numbers: String = texts.iter().map(|(n, _)| format!("{:>10}", n)).collect();
    println!("\n{:32}{}", name, numbers);
    for (side, title) in ["library", "engine, tested", "engine, untested"].iter().enumerate() {
        let ratios: String = columns
            .iter()
            .map(|times| format!("{:>10.2}", times[side] / columns[0][side]))
            .collect();
        println!("  {:30}{}", title, ratios);
    }
    Ok(())
}
