//! One change of a source.

#[derive(Clone, Debug, PartialEq, Eq)]
pub struct Change {
    pub start: usize,
    pub old: String,
    pub new: String,
    /// From 1.
    pub line: usize,
    /// The line it begins in, without its blanks at both ends.
    pub context: String,
    /// Where the body of its function starts and ends, brackets and all; none for a constant.
    pub body: Option<(usize, usize)>,
}

impl Change {
    /// The text from `start` to `end` becomes `new`; `bodies` are those of the source's functions.
    pub fn new(
        source: &str,
        bodies: &[(usize, usize)],
        (start, end): (usize, usize),
        new: String,
    ) -> Change {
        let front = &source[..start];
        let line_start = front.rfind('\n').map_or(0, |place| place + 1);
        let context = source[line_start..].lines().next().unwrap_or("").trim().to_string();
        Change {
            start,
            old: source[start..end].to_string(),
            new,
            line: front.matches('\n').count() + 1,
            context,
            body: bodies.iter().find(|body| body.0 < start && end < body.1).copied(),
        }
    }

    fn end(&self) -> usize {
        self.start + self.old.len()
    }
}

/// The source with these changes, of which no two overlap.
pub fn apply(source: &str, changes: &[&Change]) -> String {
    let mut sorted = changes.to_vec();
    sorted.sort_by_key(|change| change.start);
    let mut text = String::new();
    let mut copied = 0;
    for change in sorted {
        text += &source[copied..change.start];
        text += &change.new;
        copied = change.end();
    }
    text + &source[copied..]
}
