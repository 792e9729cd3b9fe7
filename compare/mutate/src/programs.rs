//! The programs in which a changed engine is tried, and what they are given with what is right.

use comparer::asks::Ask;
use comparer::differ::everything;
use comparer::following;
use comparer::looking::{fixed_trials, trials, CI_PAIRS, ENGINE};
use comparer::nooks;
use comparer::reading::{engine_reads, pages, CI_PAGES};
use comparer::sheets::Runs;
use comparer::texts::Pair;
use comparer::{CI_LINES, CI_SEEDS};

/// Inputs, each with the output that is right.
type Inputs = Vec<(Vec<u8>, Vec<u8>)>;

pub struct Program {
    /// As a file it has `.rs` behind it.
    pub name: &'static str,
    pub source: &'static str,
    pub inputs: Inputs,
}

/// All of them: that of the console first.
pub fn programs() -> [Program; 4] {
    [
        Program { name: "sheet", source: SHEET, inputs: everything(CI_SEEDS, CI_LINES) },
        Program { name: "reads", source: READS, inputs: vec![all_pages()] },
        Program { name: "looks", source: LOOKS, inputs: vec![all_pairs()] },
        Program { name: "follows", source: FOLLOWS, inputs: vec![all_runs()] },
    ]
}

const SHEET: &str = "use std::io::{Read, Write};
fn main() {
    let mut input = Vec::new();
    std::io::stdin().lock().read_to_end(&mut input).expect(\"input\");
    let output = engine::sheet(&input);
    std::io::stdout().lock().write_all(&output).expect(\"output\");
}
";

/// Pages in, each after its length, and out what the engine reads from each: the answer, and the
/// tables as one number.
const READS: &str = "use std::io::{Read, Write};
fn main() {
    let mut input = Vec::new();
    std::io::stdin().lock().read_to_end(&mut input).expect(\"input\");
    let mut output = Vec::new();
    let mut rest = &input[..];
    while rest.len() >= 8 {
        let size = u64::from_le_bytes(rest[..8].try_into().expect(\"eight bytes\")) as usize;
        let (tables, answer) = engine::read(&rest[8..8 + size]);
        let tables = format!(\"{:?}\", tables);
        let mixed = |sum: u64, byte: u8| (sum ^ u64::from(byte)).wrapping_mul(0x100000001b3);
        let sum = tables.bytes().fold(0xcbf29ce484222325, mixed);
        output.extend(format!(\"{:?} {}\\n\", answer, sum).bytes());
        rest = &rest[8 + size..];
    }
    std::io::stdout().lock().write_all(&output).expect(\"output\");
}
";

/// Bytes as one number.
fn mixed(bytes: &[u8]) -> u64 {
    let mixed = |sum: u64, byte: &u8| (sum ^ u64::from(*byte)).wrapping_mul(0x0100_0000_01b3);
    bytes.iter().fold(0xcbf2_9ce4_8422_2325, mixed)
}

/// All pages that the comparer compares in one input.
fn all_pages() -> (Vec<u8>, Vec<u8>) {
    let (mut input, mut output) = (Vec::new(), Vec::new());
    for (_, page) in pages(1, CI_PAGES) {
        input.extend((page.len() as u64).to_le_bytes());
        input.extend_from_slice(&page);
        let (answer, tables) = engine_reads(&page);
        output.extend(format!("{} {}\n", answer, mixed(tables.as_bytes())).bytes());
    }
    (input, output)
}

/// Pairs of texts in, each with what is asked on it, and out what the engine's desk says to it and
/// prints, the prints as one number. Bytes come after their length; before what is asked stands how
/// much it is, before a key 0 and before the places of a list 1.
const LOOKS: &str = "use std::io::{Read, Write};
fn word(rest: &mut &[u8]) -> u64 {
    let (front, back) = rest.split_at(8);
    *rest = back;
    u64::from_le_bytes(front.try_into().expect(\"eight bytes\"))
}
fn bytes<'a>(rest: &mut &'a [u8]) -> &'a [u8] {
    let size = word(rest) as usize;
    let (front, back) = rest.split_at(size);
    *rest = back;
    front
}
fn mixed(bytes: &[u8]) -> u64 {
    let mixed = |sum: u64, byte: &u8| (sum ^ u64::from(*byte)).wrapping_mul(0x100000001b3);
    bytes.iter().fold(0xcbf29ce484222325, mixed)
}
fn main() {
    let mut input = Vec::new();
    std::io::stdin().lock().read_to_end(&mut input).expect(\"input\");
    let mut output = Vec::new();
    let mut rest = &input[..];
    while !rest.is_empty() {
        let desk = engine::Desk::new(bytes(&mut rest), bytes(&mut rest));
        output.extend(format!(\"{}\\n\", mixed(&desk.print(None))).bytes());
        for _ in 0..word(&mut rest) {
            if word(&mut rest) == 0 {
                let (key, occurrence) = (bytes(&mut rest), word(&mut rest));
                let print = mixed(&desk.print(Some((key, occurrence))));
                let found = desk.find(key, occurrence);
                output.extend(format!(\"{:?} {}\\n\", found, print).bytes());
            } else {
                let mut list: Vec<u64> = (0..word(&mut rest)).map(|_| word(&mut rest)).collect();
                let answer = desk.list(&mut list);
                output.extend(format!(\"{:?} {:?}\\n\", answer, list).bytes());
            }
        }
    }
    std::io::stdout().lock().write_all(&output).expect(\"output\");
}
";

/// All pairs of texts that the comparer compares in one input.
fn all_pairs() -> (Vec<u8>, Vec<u8>) {
    let (mut input, mut output) = (Vec::new(), Vec::new());
    for trial in trials(1, CI_PAIRS).chain(fixed_trials()) {
        let Pair { original, copy } = &trial.pair;
        put_bytes(&mut input, original);
        put_bytes(&mut input, copy);
        put(&mut input, trial.asked.len() as u64);
        let printed = |wanted: Option<(&[u8], u64)>| mixed(&(ENGINE.print)(original, copy, wanted));
        output.extend(format!("{}\n", printed(None)).bytes());
        for (ask, _) in trial.asked {
            let said = match ask {
                Ask::Find { key, occurrence } => {
                    put(&mut input, 0);
                    put_bytes(&mut input, &key);
                    put(&mut input, occurrence);
                    let found = (ENGINE.find)(original, copy, &key, occurrence);
                    format!("{} {}\n", found, printed(Some((&key, occurrence))))
                }
                Ask::List { lent: mut list } => {
                    put(&mut input, 1);
                    put(&mut input, list.len() as u64);
                    list.iter().for_each(|place| put(&mut input, *place));
                    let answer = (ENGINE.list)(original, copy, &mut list);
                    format!("{} {:?}\n", answer, list)
                }
            };
            output.extend(said.bytes());
        }
    }
    (input, output)
}

/// Runs of sheets in, and out what the engine's `follow` prints on each, as one number. Before the
/// files of a run stands how many they are, behind each of them 0, or the error's number and 1.
const FOLLOWS: &str = "use std::io::{Read, Write};
fn word(rest: &mut &[u8]) -> u64 {
    let (front, back) = rest.split_at(8);
    *rest = back;
    u64::from_le_bytes(front.try_into().expect(\"eight bytes\"))
}
fn bytes<'a>(rest: &mut &'a [u8]) -> &'a [u8] {
    let size = word(rest) as usize;
    let (front, back) = rest.split_at(size);
    *rest = back;
    front
}
fn mixed(bytes: &[u8]) -> u64 {
    let mixed = |sum: u64, byte: &u8| (sum ^ u64::from(*byte)).wrapping_mul(0x100000001b3);
    bytes.iter().fold(0xcbf29ce484222325, mixed)
}
fn main() {
    let mut input = Vec::new();
    std::io::stdin().lock().read_to_end(&mut input).expect(\"input\");
    let mut output = Vec::new();
    let mut rest = &input[..];
    while !rest.is_empty() {
        let mut files = Vec::new();
        for _ in 0..word(&mut rest) {
            let (name, text) = (bytes(&mut rest), bytes(&mut rest));
            let failed = word(&mut rest).checked_sub(1).map(|error| error as i32);
            files.push(engine::File { name, bytes: text, failed });
        }
        output.extend(format!(\"{}\\n\", mixed(&engine::follow(&files))).bytes());
    }
    std::io::stdout().lock().write_all(&output).expect(\"output\");
}
";

/// How many runs of one seed there are before the fixed ones.
const RUNS: usize = 150;

/// Runs of sheets as the comparer makes them, in one input.
fn all_runs() -> (Vec<u8>, Vec<u8>) {
    let (mut input, mut output) = (Vec::new(), Vec::new());
    for run in Runs::new(1).take(RUNS).chain(nooks::fixed()) {
        put(&mut input, run.sheets.len() as u64);
        let given = run.given();
        for (name, text, failed) in &given {
            put_bytes(&mut input, name);
            put_bytes(&mut input, text);
            put(&mut input, failed.map_or(0, |error| error as u64 + 1));
        }
        let printed = (following::ENGINE.print)(&given);
        output.extend(format!("{}\n", mixed(&printed)).bytes());
    }
    (input, output)
}

fn put(input: &mut Vec<u8>, word: u64) {
    input.extend(word.to_le_bytes());
}

fn put_bytes(input: &mut Vec<u8>, bytes: &[u8]) {
    put(input, bytes.len() as u64);
    input.extend_from_slice(bytes);
}
