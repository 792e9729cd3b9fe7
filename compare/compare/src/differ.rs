//! Batches of scripts run through both sides, and the first script that shows a difference.

use crate::corners::{an_hour, named};
use crate::other::Other;
use crate::script::generate;
use crate::shrink::shrink;
use engine::sheet::lines;
use engine::{parse, sheet, Engine, Request};
use std::ops::Range;

/// The most lines that one run of a program gets, unless a single script is longer.
const MOST_LINES: usize = 100_000;

/// An input on which the two sides differ.
pub struct Failure {
    pub input: Vec<u8>,
    /// It begins with an accepted FRESH, so that it stands by itself, and has to stay so.
    pub fresh: bool,
    pub origin: String,
}

/// How much was compared.
#[derive(Default)]
pub struct Count {
    pub runs: u64,
    pub scripts: u64,
    pub lines: u64,
}

/// Whether the other side prints anything but what the engine prints.
pub fn differs(other: &Other, input: &[u8]) -> Result<bool, String> {
    Ok(other.print(input)? != sheet(input))
}

/// A shorter input that begins with an accepted FRESH where the first one did and still differs.
pub fn shortest(other: &Other, failure: &Failure) -> Result<Vec<u8>, String> {
    shrink(&failure.input, |shorter| {
        Ok((!failure.fresh || begins_fresh(shorter)) && differs(other, shorter)?)
    })
}

/// Whether the first line is a FRESH that is accepted.
pub fn begins_fresh(input: &[u8]) -> bool {
    match lines(input).first().map(|line| parse(line)) {
        Some(Some(request @ Request::Fresh(..))) => {
            Engine::smallest().perform(request, &mut []).is_ok()
        }
        _ => false,
    }
}

/// Runs the scripts of all seeds in batches that grow from one script, then the fixed inputs.
pub fn run(
    other: &Other,
    seeds: Range<u64>,
    lines: usize,
    count: &mut Count,
) -> Result<Option<Failure>, String> {
    let mut most = 1;
    let mut next = seeds.start;
    while next < seeds.end {
        let scripts_in_batch = (most / lines.max(1)).max(1) as u64;
        let batch = next..(next + scripts_in_batch).min(seeds.end);
        if let Some(failure) = run_batch(other, batch.clone(), lines, count)? {
            return Ok(Some(failure));
        }
        next = batch.end;
        most = (most * 10).min(MOST_LINES);
    }
    run_corners(other, count)
}

/// What follows the scripts: the fixed inputs by what they are about.
pub fn fixed_inputs() -> Vec<(&'static str, Vec<u8>)> {
    let mut inputs = named();
    inputs.push(("an hour of ticks", an_hour()));
    inputs
}

/// All that `run` compares, in inputs for one run each, with what the engine prints: for one who
/// tries many programs.
pub fn everything(seeds: Range<u64>, lines: usize) -> Vec<(Vec<u8>, Vec<u8>)> {
    let scripts: Vec<Vec<u8>> = seeds.map(|seed| generate(seed, lines)).collect();
    // Most that is wrong shows in a few scripts.
    let few = scripts.len().min(20);
    let mut inputs = vec![join(&scripts[..few])];
    let rest = &scripts[few..];
    inputs.extend(rest.chunks((MOST_LINES / lines.max(1)).max(1)).map(join));
    inputs.extend(fixed_inputs().into_iter().map(|(_, input)| input));
    let with_output = |input: Vec<u8>| {
        let output = sheet(&input);
        (input, output)
    };
    inputs.into_iter().map(with_output).collect()
}

fn run_corners(other: &Other, count: &mut Count) -> Result<Option<Failure>, String> {
    for (about, input) in fixed_inputs() {
        count.runs += 1;
        if differs(other, &input)? {
            let origin = format!("a fixed input ({})", about);
            return Ok(Some(Failure { input, fresh: false, origin }));
        }
    }
    Ok(None)
}

/// A batch of scripts in one input; each but the last is ended by byte 10.
fn join(scripts: &[Vec<u8>]) -> Vec<u8> {
    let mut input: Vec<u8> = Vec::new();
    for script in scripts {
        if !input.is_empty() && !input.ends_with(b"\n") {
            input.push(b'\n');
        }
        input.extend_from_slice(script);
    }
    input
}

fn run_batch(
    other: &Other,
    seeds: Range<u64>,
    lines: usize,
    count: &mut Count,
) -> Result<Option<Failure>, String> {
    let scripts: Vec<Vec<u8>> = seeds.clone().map(|seed| generate(seed, lines)).collect();
    count.runs += 1;
    count.scripts += scripts.len() as u64;
    count.lines += (scripts.len() * lines) as u64;
    let expected: Vec<Vec<u8>> = scripts.iter().map(|script| sheet(script)).collect();
    let got = other.print(&join(&scripts))?;
    if got == expected.concat() {
        return Ok(None);
    }
    let place = first_different(&expected, &got);
    let seed = seeds.start + place as u64;
    if differs(other, &scripts[place])? {
        let origin = format!("seed {}, {} lines", seed, lines);
        return Ok(Some(Failure { input: scripts[place].clone(), fresh: true, origin }));
    }
    // By itself the script is answered rightly: it takes the batch to show the difference.
    let origin = format!("the batch of seeds {}..{}, {} lines each", seeds.start, seeds.end, lines);
    Ok(Some(Failure { input: join(&scripts), fresh: true, origin }))
}

/// The script whose part of the output is the first that is not as expected.
fn first_different(expected: &[Vec<u8>], got: &[u8]) -> usize {
    let mut rest = got;
    for (place, part) in expected.iter().enumerate() {
        match rest.strip_prefix(part.as_slice()) {
            Some(tail) => rest = tail,
            None => return place,
        }
    }
    expected.len() - 1
}
