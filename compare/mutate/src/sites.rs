//! The changes that a source allows: each number one up, one down or 0, each operator another.

use edit::change::Change;
use edit::lexer::{bodies, tokens, Kind, Token};

pub fn changes(source: &str) -> Vec<Change> {
    let tokens = tokens(source);
    let bodies = bodies(&tokens);
    let mut changes = Vec::new();
    for (place, token) in tokens.iter().enumerate() {
        let before = place.checked_sub(1).map(|place| tokens[place]);
        for new in others(source, before, token) {
            changes.push(Change::new(source, &bodies, (token.start, token.end()), new));
        }
    }
    changes
}

/// What may stand in this token's place.
fn others(source: &str, before: Option<Token>, token: &Token) -> Vec<String> {
    match token.kind {
        // `.0` of a pair is no number.
        Kind::Number if before.map_or(false, |token| token.is(".")) => Vec::new(),
        Kind::Number => numbers(token.text),
        Kind::Byte => match token.text.as_bytes() {
            [b'b', b'\'', byte, b'\''] => vec![(byte + 1).to_string(), (byte - 1).to_string()],
            _ => Vec::new(),
        },
        Kind::Mark => operators(source, before, token).iter().map(|s| s.to_string()).collect(),
        _ => Vec::new(),
    }
}

fn numbers(text: &str) -> Vec<String> {
    let value: u64 = match text.replace('_', "").parse() {
        Ok(value) => value,
        Err(_) => return Vec::new(),
    };
    let mut others = vec![value + 1];
    if value >= 1 {
        others.push(value - 1);
    }
    if value >= 2 {
        others.push(0);
    }
    others.iter().map(u64::to_string).collect()
}

/// rustfmt puts blanks around an operator between two values, and none around those of types,
/// references and ranges.
fn operators(source: &str, before: Option<Token>, token: &Token) -> &'static [&'static str] {
    let blank = |text: Option<char>| text.map_or(false, char::is_whitespace);
    let blank_before = blank(source[..token.start].chars().next_back());
    let blank_behind = blank(source[token.end()..].chars().next());
    if blank_before && blank_behind {
        return match token.text {
            "<" => &["<=", ">="],
            "<=" => &["<", ">"],
            ">" => &[">=", "<="],
            ">=" => &[">", "<"],
            "==" => &["!="],
            "!=" => &["=="],
            "+" => &["-", "*"],
            "-" => &["+", "*"],
            "*" => &["+", "/"],
            "/" => &["*", "%"],
            "%" => &["/", "*"],
            "+=" => &["-=", "*="],
            "-=" => &["+="],
            "&&" => &["||"],
            "||" => &["&&"],
            _ => &[],
        };
    }
    let word_before = before.map_or(false, |token| matches!(token.kind, Kind::Word | Kind::Number));
    let of_macro = word_before && !blank_before;
    match token.text {
        "!" if !blank_behind && !of_macro => &[""],
        "..=" => &[".."],
        ".." if word_before && !blank_before && !blank_behind => &["..="],
        _ => &[],
    }
}
