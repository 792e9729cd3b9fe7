//! Pairs of texts from a seed: an original's transcript and a copy's, damaged or not.

use crate::miscopy::miscopy;
use crate::pages::{self, Pages};
use crate::prng::Prng;

/// The original's transcript and the copy's.
#[derive(Clone, Debug, PartialEq, Eq)]
pub struct Pair {
    pub original: Vec<u8>,
    pub copy: Vec<u8>,
}

/// What the texts are.
#[derive(Clone, Copy, Debug, PartialEq, Eq, PartialOrd, Ord)]
pub enum Kind {
    Noise,
    Letters,
    Keys,
    OneKey,
    Page,
    Wide,
    Long,
}

impl Kind {
    pub fn what(self) -> &'static str {
        match self {
            Kind::Noise => "any bytes",
            Kind::Letters => "few letters",
            Kind::Keys => "lines of few keys",
            Kind::OneKey => "many lines of one key",
            Kind::Page => "pages",
            Kind::Wide => "long lines",
            Kind::Long => "very long ones",
        }
    }
}

/// What the copy is to the original.
#[derive(Clone, Copy, Debug, PartialEq, Eq, PartialOrd, Ord)]
pub enum Relation {
    Same,
    Miscopied,
    Another,
    None,
}

impl Relation {
    pub const ALL: [Relation; 4] =
        [Relation::Same, Relation::Miscopied, Relation::Another, Relation::None];

    pub fn what(self) -> &'static str {
        match self {
            Relation::Same => "the same",
            Relation::Miscopied => "miscopied",
            Relation::Another => "another",
            Relation::None => "one empty",
        }
    }
}

/// Of a thousand pairs, so many are of each kind.
const KINDS: [(Kind, u64); 7] = [
    (Kind::Noise, 70),
    (Kind::Letters, 270),
    (Kind::Keys, 310),
    (Kind::OneKey, 66),
    (Kind::Page, 250),
    (Kind::Wide, 30),
    (Kind::Long, 4),
];

/// Each kind once for every forty of its thousand that are begun: 28 in all.
pub fn turn() -> Vec<Kind> {
    KINDS.iter().flat_map(|(kind, weight)| vec![*kind; (*weight as usize + 39) / 40]).collect()
}

/// Pairs without end; the same ones for the same seed.
pub struct Pairs {
    prng: Prng,
    pages: Pages,
}

impl Pairs {
    pub fn new(seed: u64) -> Pairs {
        let mut prng = Prng::new(seed);
        let pages = Pages::new(prng.number());
        Pairs { prng, pages }
    }

    /// For what is asked of a pair.
    pub fn prng(&mut self) -> &mut Prng {
        &mut self.prng
    }

    pub fn of_any_kind(&mut self) -> (Kind, Relation, Pair) {
        let weights: Vec<u64> = KINDS.iter().map(|(_, weight)| *weight).collect();
        let (kind, _) = KINDS[self.prng.weighted(&weights)];
        let (relation, pair) = self.pair(kind);
        (kind, relation, pair)
    }

    pub fn pair(&mut self, kind: Kind) -> (Relation, Pair) {
        let one = self.text(kind);
        let relation = Relation::ALL[self.prng.weighted(&[8, 64, 24, 4])];
        let two = match relation {
            Relation::Same => one.clone(),
            Relation::Miscopied => self.miscopied(kind, &one),
            Relation::Another => self.text(kind),
            Relation::None => Vec::new(),
        };
        let (original, copy) = if self.prng.chance(1, 2) { (one, two) } else { (two, one) };
        (relation, Pair { original, copy })
    }

    fn text(&mut self, kind: Kind) -> Vec<u8> {
        let prng = &mut self.prng;
        match kind {
            Kind::Noise => noise(prng),
            Kind::Letters => letters(prng),
            Kind::Keys => keys(prng),
            Kind::OneKey => one_key(prng),
            Kind::Page => self.pages.page(prng.pick(&[pages::Kind::Reached, SOUND, SOUND])),
            Kind::Wide => wide(prng),
            Kind::Long => long(prng),
        }
    }

    fn miscopied(&mut self, kind: Kind, text: &[u8]) -> Vec<u8> {
        let prng = &mut self.prng;
        let mut copy = text.to_vec();
        if kind == Kind::Page && prng.chance(1, 2) {
            // A page is still one here, so that what happens to pages may happen to it.
            let kind = prng.pick(&GONE_WRONG);
            return pages::changed(prng, kind, copy);
        }
        miscopy(prng, &mut copy);
        copy
    }
}

const SOUND: pages::Kind = pages::Kind::Unreached;

/// What happens to pages, but for absurd counts, which only make them long.
const GONE_WRONG: [pages::Kind; 9] = [
    pages::Kind::Twisted,
    pages::Kind::Twisted,
    pages::Kind::Byte,
    pages::Kind::Line,
    pages::Kind::Digits,
    pages::Kind::Ends,
    pages::Kind::Misspelt,
    pages::Kind::Misshapen,
    pages::Kind::Tail,
];

fn noise(prng: &mut Prng) -> Vec<u8> {
    let length = prng.below(120);
    // Without lines and keys there is nothing to say.
    let telling = prng.pick(&[0, 1, 3]);
    let mut byte =
        || if prng.chance(telling, 10) { prng.pick(b"=\n") } else { prng.below(256) as u8 };
    (0..length).map(|_| byte()).collect()
}

/// Few letters, so that keys meet again and are the fronts of each other.
fn letters(prng: &mut Prng) -> Vec<u8> {
    let letters: &[u8] = prng.pick(&[b"=\na", b"=\nab", b"=\n\na", b"==\nab", b"=\naA0\0\xff\r"]);
    let length = prng.pick(&[6, 12, 24, 60]);
    (0..prng.below(length)).map(|_| prng.pick(letters)).collect()
}

const KEYS: [&[u8]; 20] = [
    b"", b"", b"a", b"a", b"b", b"aa", b"ab", b"aab", b"A", b"a ", b" a", b"0", b"held", b"hel",
    b"helds", b"id", b"d", b"\0", b"a\0b", b"\xff\r",
];

const FIELDS: [&[u8]; 16] = [
    b"", b"", b"0", b"1", b"1", b"2", b"10", b"=", b"a=b", b"=1", b"1=", b"a", b"-", b"1\r", b"\0",
    b"\xff",
];

/// Lines without any key.
const KEYLESS: [&[u8]; 8] = [b"", b"", b"a", b"b", b"held", b"\r", b"\0", b"a:1"];

fn line(prng: &mut Prng, key: &[u8]) -> Vec<u8> {
    [key, b"=", prng.pick(&FIELDS)].concat()
}

/// Each is ended by byte 10, but the last perhaps.
fn joined(prng: &mut Prng, lines: &[Vec<u8>]) -> Vec<u8> {
    let mut text: Vec<u8> =
        lines.iter().flat_map(|line| line.iter().chain(b"\n")).copied().collect();
    if prng.chance(1, 3) {
        text.pop();
    }
    text
}

/// Lines of few keys and fields, some without a key between them.
fn keys(prng: &mut Prng) -> Vec<u8> {
    let few: Vec<&[u8]> = (0..prng.between(1, 6)).map(|_| prng.pick(&KEYS)).collect();
    let count = prng.pick(&[1, 3, 6, 12, 12, 40]);
    let keyless = prng.pick(&[0, 1, 3]);
    let mut lines = Vec::new();
    for _ in 0..prng.between(1, count) {
        let key = prng.pick(&few);
        let keyless = prng.chance(keyless, 10);
        lines.push(if keyless { prng.pick(&KEYLESS).to_vec() } else { line(prng, key) });
    }
    joined(prng, &lines)
}

/// Like the `held` lines of a page: 300 of them at the most.
fn one_key(prng: &mut Prng) -> Vec<u8> {
    let key = prng.pick(&KEYS);
    let count = prng.pick(&[4, 10, 20, 20, 40, 300]);
    let mut lines = Vec::new();
    for place in 0..prng.between(1, count) {
        let field = prng.below(3).to_string().into_bytes();
        let other = prng.pick(&KEYS);
        lines.push(match prng.below(12) {
            0 => line(prng, other),
            1 => prng.pick(&KEYLESS).to_vec(),
            2..=7 => [key, b"=", place.to_string().as_bytes()].concat(),
            _ => [key, b"=", &field].concat(),
        });
    }
    joined(prng, &lines)
}

/// Keys and fields of up to 5,000 bytes that differ in their last one, if at all.
fn wide(prng: &mut Prng) -> Vec<u8> {
    let size = prng.pick(&[70, 254, 255, 256, 1_020, 4_090, 5_000]) + prng.below(4) as usize;
    let filled = vec![prng.pick(&[b'a', b'a', b'0', 255]); size];
    let mut lines = Vec::new();
    for _ in 0..prng.between(1, 6) {
        let last: &[u8] = prng.pick(&[b"", b"a", b"b"]);
        let (key, field) = (prng.pick(&KEYS), prng.pick(&FIELDS));
        lines.push(match prng.below(4) {
            0 => [&filled, last].concat(),
            1 => [&filled, last, b"=", field].concat(),
            _ => [key, b"=", &filled, last].concat(),
        });
    }
    joined(prng, &lines)
}

/// A line of up to 100,000 bytes, with a key that is short, or as long, or none; or more lines than
/// 16 bits count. Before it and behind it some others.
fn long(prng: &mut Prng) -> Vec<u8> {
    let size = prng.pick(&[300, 5_000, 66_000, 100_000]) - prng.below(300) as usize;
    let filler = prng.pick(&[b'a', b'0', b' ', 0, 255]);
    let filled = vec![filler; size];
    let middle = match prng.below(6) {
        0 => filled,
        1 => [&filled[..], b"=", prng.pick(&FIELDS)].concat(),
        2 => vec![b'='; size],
        3 | 4 => vec![b'\n'; 66_000 + size / 50],
        _ => [prng.pick(&KEYS), b"=", &filled].concat(),
    };
    let (front, back) = (keys(prng), keys(prng));
    [&front[..], b"\n", &middle, b"\n", &back].concat()
}

/// Every text of these letters and of up to so many bytes.
pub fn every(letters: &[u8], most: usize) -> Vec<Vec<u8>> {
    let mut all: Vec<Vec<u8>> = vec![Vec::new()];
    let mut last = 0;
    for _ in 0..most {
        let next = all.len();
        for place in last..next {
            for letter in letters {
                let text = [&all[place][..], &[*letter]].concat();
                all.push(text);
            }
        }
        last = next;
    }
    all
}
