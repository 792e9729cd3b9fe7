//! A whole console text: what the library puts into buffers of several lengths, against what the
//! engine prints.

use crate::ffi::{self, Reply, ANSWER};
use crate::show;
use crate::tables::answered;
use comparer::corners::corners;
use comparer::prng::Prng;
use comparer::report::shown;
use comparer::script::generate;
use comparer::shrink::shrink;
use engine::sheet::{lines, print_line};
use engine::Engine;
use std::ops::Range;

/// No byte that the output has.
const FILL: u8 = 0xa5;
const MARGIN: usize = 32;

/// How much was compared.
#[derive(Default)]
pub struct Count {
    pub texts: u64,
    pub lines: u64,
    pub buffers: u64,
}

/// What is printed for each line.
pub fn pieces(text: &[u8]) -> Vec<Vec<u8>> {
    let mut engine = Engine::smallest();
    lines(text).into_iter().map(|line| print_line(&mut engine, line)).collect()
}

/// What a buffer of this length holds: the output of the lines up to the first that does not fit.
/// What is behind it stays. And how many bytes that is.
fn held(pieces: &[Vec<u8>], size: usize) -> (Vec<u8>, usize) {
    let mut buffer = Vec::new();
    for piece in pieces {
        if buffer.len() + piece.len() > size {
            break;
        }
        buffer.extend_from_slice(piece);
    }
    let put = buffer.len();
    buffer.resize(size, FILL);
    (buffer, put)
}

/// Lengths of buffers: exact, longer, and too short by one byte, by much, and around the end of
/// some line's output.
fn sizes(prng: &mut Prng, pieces: &[Vec<u8>]) -> Vec<usize> {
    let whole: usize = pieces.iter().map(Vec::len).sum();
    let mut sizes = vec![whole, whole + 1, whole + 1_000, 0];
    if !pieces.is_empty() {
        let count = prng.below(pieces.len() as u64) as usize;
        let end: usize = pieces[..=count].iter().map(Vec::len).sum();
        sizes.extend([whole - 1, prng.below(whole as u64) as usize, end - 1, end, end + 1]);
    }
    sizes
}

/// What is handed back, and what is left in the buffer and in the bytes lent for the answer, each
/// with a margin behind it.
#[derive(PartialEq, Eq)]
struct Outcome {
    number: u64,
    buffer: Vec<u8>,
    answer: Vec<u8>,
}

/// The engine's side, by what each line prints.
fn engine_side(pieces: &[Vec<u8>], size: usize, answer_size: usize) -> Outcome {
    let all: usize = pieces.iter().map(Vec::len).sum();
    let (mut buffer, put) = held(pieces, size);
    let mut answer = vec![FILL; answer_size];
    let number = if answer_size < ANSWER {
        buffer = vec![FILL; size];
        12
    } else {
        let values = [all as u64, put as u64, 0, 0, 0, 0];
        answer = answered(&Reply { number: 0, values }, &answer);
        0
    };
    buffer.extend([FILL; MARGIN]);
    answer.extend([FILL; MARGIN]);
    Outcome { number, buffer, answer }
}

fn library_side(text: &[u8], size: usize, answer_size: usize) -> Outcome {
    let mut buffer = vec![FILL; size + MARGIN];
    let mut answer = vec![FILL; answer_size + MARGIN];
    let number = ffi::run_bytes(text, &mut buffer[..size], &mut answer[..answer_size]);
    Outcome { number, buffer, answer }
}

/// What differs on this text; the same buffers for the same text and seed.
fn difference(seed: u64, text: &[u8], count: &mut Count) -> Option<String> {
    let pieces = pieces(text);
    let prng = &mut Prng::new(seed);
    for (place, size) in sizes(prng, &pieces).into_iter().enumerate() {
        // The first buffer once with too few bytes for the answer, the second with more.
        let answers = match place {
            0 => vec![ANSWER, prng.below(ANSWER as u64) as usize, ANSWER - 1],
            1 => vec![ANSWER + 1, 100],
            _ => vec![ANSWER],
        };
        for answer_size in answers {
            count.buffers += 1;
            let expected = engine_side(&pieces, size, answer_size);
            let got = library_side(text, size, answer_size);
            if got != expected {
                return Some(report(text, &expected, &got));
            }
        }
    }
    count.texts += 1;
    count.lines += pieces.len() as u64;
    None
}

fn report(text: &[u8], expected: &Outcome, got: &Outcome) -> String {
    let (right, wrong) = (lines(put(&expected.buffer)), lines(put(&got.buffer)));
    let same = right.iter().zip(&wrong).take_while(|(one, two)| one == two).count();
    let mut report = String::from("text:\n");
    block(&mut report, &lines(text), usize::MAX);
    for (title, outcome) in [("the engine", expected), ("the library", got)] {
        let answer = show::answer(&outcome.answer[..outcome.answer.len() - MARGIN]);
        report += &format!("{} hands back {}; {}\n", title, outcome.number, answer);
    }
    report += &format!("a buffer of {} bytes has to hold:\n", expected.buffer.len() - MARGIN);
    block(&mut report, &right, same);
    report += "it holds:\n";
    block(&mut report, &wrong, same);
    report
}

/// The buffer up to the last byte that was put into it.
fn put(buffer: &[u8]) -> &[u8] {
    &buffer[..buffer.iter().rposition(|byte| *byte != FILL).map_or(0, |last| last + 1)]
}

/// Lines in print, the one at this place marked.
fn block(report: &mut String, lines: &[&[u8]], mark: usize) {
    for (place, line) in lines.iter().enumerate() {
        let sign = if place == mark { '>' } else { ' ' };
        *report += &format!("  {} {}\n", sign, shown(line));
    }
}

/// Compares the scripts of these seeds, all of them in one text, and the fixed inputs. The report
/// of the first that differs, if any does, with a text made short.
pub fn agree(seeds: Range<u64>, lines: usize, count: &mut Count) -> Result<(), String> {
    let mut together = Vec::new();
    for seed in seeds.clone() {
        let script = generate(seed, lines);
        check(&format!("seed {}, {} lines", seed, lines), seed, &script, count)?;
        if together.len() < MOST_TOGETHER {
            if !together.is_empty() && !together.ends_with(b"\n") {
                together.push(b'\n');
            }
            together.extend(script);
        }
    }
    check("many scripts in one text", seeds.start, &together, count)?;
    for text in corners() {
        check("a fixed input", seeds.start, &text, count)?;
    }
    Ok(())
}

/// Bytes of the text of many scripts.
const MOST_TOGETHER: usize = 1_000_000;

fn check(origin: &str, seed: u64, text: &[u8], count: &mut Count) -> Result<(), String> {
    if difference(seed, text, count).is_none() {
        return Ok(());
    }
    let differs = |shorter: &[u8]| difference(seed, shorter, &mut Count::default());
    let short = shrink(text, |shorter| Ok(differs(shorter).is_some()))?;
    let message = differs(&short).or_else(|| differs(text)).unwrap_or_default();
    Err(format!("difference on {}; the shortest text found:\n{}", origin, message))
}
