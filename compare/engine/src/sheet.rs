//! The outline, "The page and the console line": the program `sheet`.

use crate::answer::{self, refused, Answer, Value};
use crate::line::{parse, Request};
use crate::tables::Engine;

/// Console lines in, what `sheet` prints out.
pub fn sheet(input: &[u8]) -> Vec<u8> {
    // It starts with the smallest tables.
    let mut engine = Engine::smallest();
    let mut output = Vec::new();
    for line in lines(input) {
        output.extend(print_line(&mut engine, line));
    }
    output
}

/// The lines of the input; a last one without byte 10 counts.
pub fn lines(input: &[u8]) -> Vec<&[u8]> {
    let mut lines: Vec<&[u8]> = input.split(|b| *b == b'\n').collect();
    // What follows the last byte 10 is a line only if there is something.
    if lines.last().map_or(false, |last| last.is_empty()) {
        lines.pop();
    }
    lines
}

/// `answer=a,value=v`, for PAGE the page instead.
pub fn print_line(engine: &mut Engine, line: &[u8]) -> Vec<u8> {
    let outcome = match parse(line) {
        Some(Request::Page) => return engine.page_bytes(),
        Some(request) => engine.perform(request, &mut []),
        None => refused(answer::NOT_UNDERSTOOD),
    };
    print_answer(Answer::of(outcome)).into_bytes()
}

/// Time is printed as `year.day.hour.minute.second.hundredth`.
pub fn print_answer(answer: Answer) -> String {
    let value = match answer.value {
        Value::Number(number) => number.to_string(),
        Value::Time(parts) => {
            let parts: Vec<String> = parts.iter().map(|part| part.to_string()).collect();
            parts.join(".")
        }
    };
    format!("answer={},value={}\n", answer.number, value)
}
