//! The command line: see `USAGE`.

use comparer::asks::Ask;
use comparer::corners::{of_ticks, of_years};
use comparer::differ::{self, shortest, Count, Failure};
use comparer::filed::{self, Folder, Program, CI_FILED};
use comparer::following::{self, CI_TRIPLES};
use comparer::leaps;
use comparer::looking::{self, Trial, CI_PAIRS};
use comparer::marks;
use comparer::other::Other;
use comparer::pages::{in_turn, turn, Pages};
use comparer::reading::{self, CI_PAGES};
use comparer::report::report;
use comparer::script::generate_within;
use comparer::tally;
use comparer::texts::Pair;
use comparer::turns;
use comparer::verdicts;
use comparer::{CI_LINES, CI_SEEDS};
use engine::ticks::MOST_TICKS;
use engine::{sheet, Answer, Desk, Found, Value};
use faults::{Fault, FAULTS};
use std::ffi::OsString;
use std::io::{self, Read, Write};
use std::ops::Range;
use std::os::unix::ffi::OsStrExt;
use std::process::ExitCode;
use std::time::Duration;

const USAGE: &str = "usage:
  compare run [--seeds A..B] [--lines N] [--limit SECONDS] [--save FILE] -- PROGRAM [ARGS..]
  compare run [--seeds A..B] [--lines N] [--save FILE] --fault NAME
  compare pages [--seed K] [--count N] [--fault NAME]
  compare texts [--seed K] [--count N] [--fault NAME]
  compare desk [--seed K] [--count N] [--limit SECONDS] [--save FILE] -- PROGRAM [ARGS..]
  compare desk [--seed K] [--count N] [--save FILE] --fault NAME
  compare follow [--seed K] [--count N] [--limit SECONDS] [--save FILE] -- PROGRAM [ARGS..]
  compare follow [--seed K] [--count N] [--save FILE] --fault NAME
  compare faults
  compare sheet
  compare look ORIGINAL COPY [KEY OCCURRENCE]
  compare after FIRST [REQUESTS NEXT ..]
  compare gen [--seed K] [--lines N] [--ticks N]
  compare cases [--seeds A..B] [--lines N] [--ticks N]
  compare readings [--seeds A..B] [--count N]
  compare lookings [--seeds A..B] [--count N]
Seeds A..B are A and up, below B. Status 0: no difference; 1: a difference; 2: not run.";

struct Options {
    seeds: Range<u64>,
    lines: usize,
    ticks: Option<u64>,
    count: Option<usize>,
    limit: Duration,
    save: Option<String>,
    fault: Option<Fault>,
    program: Vec<String>,
}

fn main() -> ExitCode {
    match command() {
        Ok(status) => ExitCode::from(status),
        Err(message) => {
            eprintln!("{}", message);
            ExitCode::from(2)
        }
    }
}

fn command() -> Result<u8, String> {
    let mut args = std::env::args_os().skip(1);
    let word = args.next().unwrap_or_default();
    if word == "look" {
        return look(&args.collect::<Vec<_>>());
    }
    if word == "after" {
        return print(&following::after(&args.collect::<Vec<_>>()));
    }
    let text = |arg: OsString| arg.into_string().map_err(|_| USAGE.to_string());
    let rest = args.map(text).collect::<Result<Vec<String>, String>>()?;
    match text(word)?.as_str() {
        "run" => run(options(rest)?),
        "pages" => pages(options(rest)?),
        "texts" => texts(options(rest)?),
        "desk" => desk(options(rest)?),
        "follow" => follow(options(rest)?),
        "faults" => {
            let list = FAULTS.iter().map(|fault| format!("{:32}{}\n", fault.name, fault.what));
            print(list.collect::<String>().as_bytes())
        }
        "sheet" => {
            let mut input = Vec::new();
            io::stdin().lock().read_to_end(&mut input).map_err(|error| error.to_string())?;
            print(&sheet(&input))
        }
        "gen" => {
            let options = options(rest)?;
            let most_ticks = options.ticks.unwrap_or(MOST_TICKS);
            print(&generate_within(options.seeds.start, options.lines, most_ticks))
        }
        "cases" => cases(options(rest)?),
        "readings" => readings(options(rest)?),
        "lookings" => lookings(options(rest)?),
        _ => Err(USAGE.to_string()),
    }
}

fn options(args: Vec<String>) -> Result<Options, String> {
    let mut options = Options {
        seeds: CI_SEEDS,
        lines: CI_LINES,
        ticks: None,
        count: None,
        limit: Duration::from_secs(60),
        save: None,
        fault: None,
        program: Vec::new(),
    };
    let mut args = args.into_iter();
    while let Some(option) = args.next() {
        if option == "--" {
            options.program = args.by_ref().collect();
            continue;
        }
        let value = args.next().ok_or(USAGE)?;
        match option.as_str() {
            "--seeds" => options.seeds = range(&value)?,
            "--seed" => options.seeds.start = whole(&value)?,
            "--lines" => options.lines = whole(&value)? as usize,
            "--ticks" => options.ticks = Some(whole(&value)?.max(1)),
            "--count" => options.count = Some(whole(&value)? as usize),
            "--limit" => options.limit = Duration::from_secs(whole(&value)?),
            "--save" => options.save = Some(value),
            "--fault" => options.fault = Some(Fault::by_name(&value).ok_or("no such fault")?),
            _ => return Err(USAGE.to_string()),
        }
    }
    Ok(options)
}

fn whole(text: &str) -> Result<u64, String> {
    text.parse().map_err(|_| format!("{} is not a number", text))
}

fn range(text: &str) -> Result<Range<u64>, String> {
    let (start, end) = text.split_once("..").ok_or(USAGE)?;
    Ok(whole(start)?..whole(end)?)
}

fn print(bytes: &[u8]) -> Result<u8, String> {
    let mut out = io::stdout().lock();
    out.write_all(bytes).and_then(|()| out.flush()).map_err(|error| error.to_string())?;
    Ok(0)
}

fn run(options: Options) -> Result<u8, String> {
    let other = match (options.fault, options.program.is_empty()) {
        (Some(fault), true) => Other::Engine(fault.sheet),
        (None, false) => Other::Program { command: options.program, limit: options.limit },
        _ => return Err(USAGE.to_string()),
    };
    let mut count = Count::default();
    let failure = differ::run(&other, options.seeds.clone(), options.lines, &mut count)?;
    match failure {
        None => {
            let marks = marks::Count::of_scripts(options.seeds, options.lines);
            let columns = ["scripts", "fixed inputs"];
            let fixed = leaps::Count::of_input(&of_ticks().map(|(_, input)| input).join(&b'\n'));
            let leaps = marks.leaps.print(columns, &fixed);
            let turns = marks.turns.print(columns, &turns::Count::of_input(&of_years()));
            let Count { runs, scripts, lines } = count;
            let said = format!("{runs} runs, {scripts} scripts, {lines} lines: no difference\n");
            print(format!("{}\n{}\n{}\n{}", marks.print(), leaps, turns, said).as_bytes())
        }
        Some(failure) => show(&other, &failure, options.save),
    }
}

/// Shrinks a failing input and prints it with both outputs.
fn show(other: &Other, failure: &Failure, save: Option<String>) -> Result<u8, String> {
    let input = shortest(other, failure)?;
    let text = report(&input, &other.print(&input)?);
    let title = format!("difference on {}; the shortest script found:\n", failure.origin);
    print((title + &text).as_bytes())?;
    if let Some(file) = save {
        std::fs::write(&file, &input).map_err(|error| format!("{}: {}", file, error))?;
    }
    Ok(1)
}

/// A wrong engine on pages; without one, what the engine says to them.
fn pages(options: Options) -> Result<u8, String> {
    let (seed, count) = (options.seeds.start, options.count.unwrap_or(CI_PAGES));
    let fault = match options.fault {
        Some(fault) => fault,
        None => {
            let mut total = reading::Count::default();
            for (kind, page) in Pages::new(seed).take(count) {
                total.add(kind, &page, engine::read(&page).1);
            }
            return print(total.print().as_bytes());
        }
    };
    let all: Vec<_> = reading::pages(seed, count).collect();
    let expected =
        all.iter().map(|(what, page)| (*what, page.as_slice(), reading::engine_reads(page)));
    match reading::first_difference(fault.read, expected) {
        None => print(format!("{} pages: no difference\n", all.len()).as_bytes()),
        Some(difference) => {
            print(reading::report(&difference).as_bytes())?;
            Ok(1)
        }
    }
}

/// A wrong engine's desk on pairs of texts; without one, what the engine's says on them.
fn texts(options: Options) -> Result<u8, String> {
    let (seed, count) = (options.seeds.start, options.count.unwrap_or(CI_PAIRS));
    let fault = match options.fault {
        Some(fault) => fault,
        None => return print(tally::Count::of_pairs(seed, count).print().as_bytes()),
    };
    let all: Vec<_> = looking::trials(seed, count).chain(looking::fixed_trials()).collect();
    match looking::first_difference(&fault.desk, all.iter()) {
        None => print(format!("{} pairs: no difference\n", all.len()).as_bytes()),
        Some(difference) => {
            print(looking::report(&fault.desk, &difference)?.as_bytes())?;
            Ok(1)
        }
    }
}

/// A `desk` program, or a wrong engine in its place, on pairs of texts in files.
fn desk(options: Options) -> Result<u8, String> {
    let program = match (options.fault, options.program.is_empty()) {
        (Some(fault), true) => Program::Engine(fault.desk.print),
        (None, false) => {
            let (command, limit) = (options.program, options.limit);
            Program::Command { command, limit, folder: Folder::new("desk")? }
        }
        _ => return Err(USAGE.to_string()),
    };
    let (seed, count) = (options.seeds.start, options.count.unwrap_or(CI_FILED));
    let mut total = filed::Count::default();
    let difference = match filed::run(&program, seed, count, &mut total)? {
        Some(difference) => filed::shortened(&program, difference)?,
        None => {
            let text = format!("{} pairs, {} runs: no difference\n", total.pairs, total.runs);
            return print(text.as_bytes());
        }
    };
    print(filed::report(&program, &difference)?.as_bytes())?;
    if let Some(file) = options.save {
        for (name, text) in
            [("original", &difference.pair.original), ("copy", &difference.pair.copy)]
        {
            let file = format!("{}.{}", file, name);
            std::fs::write(&file, text).map_err(|error| format!("{}: {}", file, error))?;
        }
    }
    Ok(1)
}

/// A `follow` program, or a wrong engine in its place, on runs of sheets in files.
fn follow(options: Options) -> Result<u8, String> {
    let program = match (options.fault, options.program.is_empty()) {
        (Some(fault), true) => following::Program::Engine(fault.follow),
        (None, false) => {
            let (command, limit) = (options.program, options.limit);
            following::Program::Command { command, limit, folder: Folder::new("follow")? }
        }
        _ => return Err(USAGE.to_string()),
    };
    let (seed, count) = (options.seeds.start, options.count.unwrap_or(CI_TRIPLES));
    let mut total = verdicts::Count::default();
    let difference = match following::run(&program, seed, count, &mut total)? {
        Some(difference) => following::shortened(&program, difference)?,
        None => {
            let said = format!("{} triples, {} runs: no difference\n", total.triples, total.runs);
            return print((total.print() + &said).as_bytes());
        }
    };
    print(following::report(&program, &difference)?.as_bytes())?;
    if let Some(file) = options.save {
        following::save(&difference, &file)?;
    }
    Ok(1)
}

/// The engine as a `desk` program. A key may be of any bytes.
fn look(args: &[OsString]) -> Result<u8, String> {
    let read = |file: &OsString| {
        std::fs::read(file).map_err(|error| format!("{}: {}", file.to_string_lossy(), error))
    };
    let (files, wanted) = match args {
        [original, copy] => ([original, copy], None),
        [original, copy, key, occurrence] => {
            let occurrence = whole(&occurrence.to_string_lossy())?;
            ([original, copy], Some((key.as_bytes(), occurrence)))
        }
        _ => return Err(USAGE.to_string()),
    };
    let [original, copy] = [read(files[0])?, read(files[1])?];
    print(&Desk::new(&original, &copy).print(wanted))
}

/// The most ticks of one line in a case: whoever computes definitions makes them one by one.
const FEW_TICKS: u64 = 30;

/// Three lines for each seed: `seed K`, `script` and `output` with their bytes in decimal.
fn cases(options: Options) -> Result<u8, String> {
    let most_ticks = options.ticks.unwrap_or(FEW_TICKS);
    let mut text = String::new();
    for seed in options.seeds {
        let script = generate_within(seed, options.lines, most_ticks);
        let output = sheet(&script);
        text += &format!("seed {}\nscript{}\noutput{}\n", seed, decimal(&script), decimal(&output));
    }
    print(text.as_bytes())
}

/// Four lines for each page: `seed K`, `kind` and what it is, `page` with its bytes in decimal,
/// `answer` with the number and the value of the engine's reader.
fn readings(options: Options) -> Result<u8, String> {
    let count = options.count.unwrap_or_else(|| turn().len());
    let mut text = String::new();
    for seed in options.seeds {
        for (kind, page) in in_turn(seed).take(count) {
            let Answer { number, value } = engine::read(&page).1;
            let value = match value {
                Value::Number(value) => value,
                Value::Time(_) => return Err(String::from("no time was asked")),
            };
            text += &format!("seed {}\nkind {}\npage{}\n", seed, kind.what(), decimal(&page));
            text += &format!("answer {} {}\n", number, value);
        }
    }
    print(text.as_bytes())
}

/// Pairs of short texts, so that definitions can be computed on them.
const SHORT: usize = 300;

fn lookings(options: Options) -> Result<u8, String> {
    let count = options.count.unwrap_or(10);
    let mut text = String::new();
    for seed in options.seeds {
        let short = |pair: &Pair| pair.original.len().max(pair.copy.len()) <= SHORT;
        let trials = looking::trials(seed, usize::MAX).filter(|trial| short(&trial.pair));
        for Trial { pair, asked, .. } in trials.take(count) {
            let desk = Desk::new(&pair.original, &pair.copy);
            text += &format!("seed {}\noriginal{}\n", seed, decimal(&pair.original));
            text += &format!("copy{}\n", decimal(&pair.copy));
            let mut list = vec![0; looking::listed(&desk)];
            desk.list(&mut list);
            let numbers: String = list.iter().map(|number| format!(" {}", number)).collect();
            text += &format!("listed{}\n", numbers);
            for (ask, _) in asked {
                if let Ask::Find { key, occurrence } = ask {
                    let Found { answer, mark, begin, end } = desk.find(&key, occurrence);
                    text += &format!("key{}\noccurrence {}\n", decimal(&key), occurrence);
                    text += &format!("found {} {} {} {}\n", answer.number, mark as u8, begin, end);
                }
            }
        }
    }
    print(text.as_bytes())
}

fn decimal(bytes: &[u8]) -> String {
    bytes.iter().map(|byte| format!(" {}", byte)).collect()
}
