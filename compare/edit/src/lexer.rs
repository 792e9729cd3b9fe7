//! A Rust source in tokens, as far as rustfmt's way of writing needs it, and the bodies of its
//! functions.

#[derive(Clone, Copy, Debug, PartialEq, Eq)]
pub enum Kind {
    Word,
    /// A whole number.
    Number,
    /// `b'x'`
    Byte,
    /// A string, a character or a lifetime.
    Text,
    Comment,
    Mark,
}

#[derive(Clone, Copy, Debug, PartialEq, Eq)]
pub struct Token<'a> {
    pub kind: Kind,
    pub text: &'a str,
    /// Where it starts.
    pub start: usize,
}

impl Token<'_> {
    pub fn end(&self) -> usize {
        self.start + self.text.len()
    }

    pub fn is(&self, text: &str) -> bool {
        self.text == text && self.kind != Kind::Text
    }
}

/// Longer ones first.
const MARKS: [&str; 19] = [
    "..=", "<<", ">>", "..", "==", "!=", "<=", ">=", "&&", "||", "+=", "-=", "*=", "/=", "%=",
    "=>", "->", "::", "#[",
];

pub fn tokens(source: &str) -> Vec<Token<'_>> {
    let mut tokens = Vec::new();
    let mut start = 0;
    while let Some(first) = source[start..].chars().next() {
        if first.is_whitespace() {
            start += first.len_utf8();
            continue;
        }
        let (kind, length) = token(&source[start..], first);
        tokens.push(Token { kind, text: &source[start..start + length], start });
        start += length;
    }
    tokens
}

/// The kind and the length of the token at the front.
fn token(rest: &str, first: char) -> (Kind, usize) {
    if rest.starts_with("//") {
        return (Kind::Comment, rest.find('\n').unwrap_or(rest.len()));
    }
    if rest.starts_with("b'") {
        return (Kind::Byte, 1 + quoted(&rest[1..], '\''));
    }
    if rest.starts_with("b\"") {
        return (Kind::Text, 1 + quoted(&rest[1..], '"'));
    }
    if first == '"' {
        return (Kind::Text, quoted(rest, '"'));
    }
    if first == '\'' {
        let lifetime = !rest[1..].starts_with('\\') && !rest.chars().nth(2).map_or(false, is_quote);
        return (Kind::Text, if lifetime { 1 + word(&rest[1..]) } else { quoted(rest, '\'') });
    }
    if first.is_ascii_digit() {
        return (Kind::Number, word(rest));
    }
    if first.is_alphabetic() || first == '_' {
        return (Kind::Word, word(rest));
    }
    let mark = MARKS.iter().find(|mark| rest.starts_with(**mark));
    (Kind::Mark, mark.map_or(first.len_utf8(), |mark| mark.len()))
}

fn is_quote(c: char) -> bool {
    c == '\''
}

fn word(rest: &str) -> usize {
    rest.find(|c: char| !c.is_alphanumeric() && c != '_').unwrap_or(rest.len())
}

/// The length of what begins with a quote, up to the one that ends it.
fn quoted(rest: &str, quote: char) -> usize {
    let mut escaped = false;
    for (place, c) in rest.char_indices().skip(1) {
        if c == quote && !escaped {
            return place + 1;
        }
        escaped = c == '\\' && !escaped;
    }
    rest.len()
}

/// The bodies of all functions, brackets and all, which do not lie in one another.
pub fn bodies(tokens: &[Token]) -> Vec<(usize, usize)> {
    let mut bodies = Vec::new();
    for place in 0..tokens.len() {
        // The type of a function has no name.
        let named = tokens.get(place + 1).map_or(false, |next| next.kind == Kind::Word);
        if tokens[place].is("fn") && named {
            let open = find(tokens, place, "{");
            let close = closing(tokens, open);
            if close < tokens.len() {
                bodies.push((tokens[open].start, tokens[close].end()));
            }
        }
    }
    bodies
}

/// The place of this token from there on.
pub fn find(tokens: &[Token], from: usize, text: &str) -> usize {
    (from..tokens.len()).find(|place| tokens[*place].is(text)).unwrap_or(tokens.len())
}

/// The place of the bracket that closes the one at this place.
fn closing(tokens: &[Token], open: usize) -> usize {
    let mut depth = 0;
    for (place, token) in tokens.iter().enumerate().skip(open) {
        depth += i32::from(["{", "(", "[", "#["].iter().any(|mark| token.is(mark)));
        depth -= i32::from(["}", ")", "]"].iter().any(|mark| token.is(mark)));
        if depth == 0 {
            return place;
        }
    }
    tokens.len()
}
