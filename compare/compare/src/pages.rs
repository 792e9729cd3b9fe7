//! Pages from a seed: those of sound tables, and those that something has happened to.

use crate::absurd::absurd;
use crate::blot;
use crate::make;
use crate::prng::Prng;
use crate::twist::{bytes_of, lines_of, twist, Lines};
use engine::raw::Raw;

/// What a page is.
#[derive(Clone, Copy, Debug, PartialEq, Eq, PartialOrd, Ord)]
pub enum Kind {
    Reached,
    Unreached,
    Twisted,
    Absurd,
    Byte,
    Line,
    Digits,
    Cut,
    Tail,
    Ends,
    Misspelt,
    Misshapen,
    Miscounted,
    Twice,
    Mark,
    Year,
}

impl Kind {
    pub fn what(self) -> &'static str {
        match self {
            Kind::Reached => "of tables that a script reaches",
            Kind::Unreached => "of sound tables that none does",
            Kind::Twisted => "says something else",
            Kind::Absurd => "absurd counts",
            Kind::Byte => "a byte changed",
            Kind::Line => "a line gone astray",
            Kind::Digits => "a zero in front, more digits",
            Kind::Cut => "cut",
            Kind::Tail => "bytes behind the end",
            Kind::Ends => "ends of lines",
            Kind::Misspelt => "a key misspelt",
            Kind::Misshapen => "a field misshapen",
            Kind::Miscounted => "records miscounted",
            Kind::Twice => "two of these at once",
            Kind::Mark => "a mark misplaced or misshapen",
            Kind::Year => "a year misplaced or misshapen",
        }
    }
}

/// Of a hundred pages, so many are of each kind.
const KINDS: [(Kind, u64); 16] = [
    (Kind::Reached, 7),
    (Kind::Unreached, 15),
    (Kind::Twisted, 27),
    (Kind::Absurd, 4),
    (Kind::Byte, 5),
    (Kind::Line, 5),
    (Kind::Digits, 5),
    (Kind::Cut, 3),
    (Kind::Tail, 2),
    (Kind::Ends, 1),
    (Kind::Misspelt, 2),
    (Kind::Misshapen, 5),
    (Kind::Miscounted, 2),
    (Kind::Twice, 5),
    (Kind::Mark, 6),
    (Kind::Year, 6),
];

/// Each kind once for every seven of its hundred that are begun: 21 in all.
pub fn turn() -> Vec<Kind> {
    KINDS.iter().flat_map(|(kind, weight)| vec![*kind; (*weight as usize + 6) / 7]).collect()
}

/// The most bytes of a page in turn: the checker computes such a page in half a second.
const MOST_IN_TURN: usize = 6_000;

/// Pages that are not too long, without end, one turn of kinds after another; the same ones for
/// the same seed.
pub fn in_turn(seed: u64) -> impl Iterator<Item = (Kind, Vec<u8>)> {
    let mut pages = Pages::new(seed);
    turn().into_iter().cycle().map(move |kind| loop {
        let page = pages.page(kind);
        if page.len() <= MOST_IN_TURN {
            return (kind, page);
        }
    })
}

/// Pages without end; the same ones for the same seed.
pub struct Pages {
    prng: Prng,
    /// Sound tables of one script that have not been taken yet.
    reached: Vec<Raw>,
}

impl Pages {
    pub fn new(seed: u64) -> Pages {
        Pages { prng: Prng::new(seed), reached: Vec::new() }
    }

    /// Sound tables, reached or not.
    pub fn sound(&mut self, kind: Kind) -> Raw {
        let unreached = match kind {
            Kind::Reached => false,
            Kind::Unreached => true,
            _ => self.prng.chance(2, 3),
        };
        if unreached {
            return make::unreached(&mut self.prng);
        }
        loop {
            if let Some(raw) = self.reached.pop() {
                return raw;
            }
            self.reached = make::reached(&mut self.prng, 16);
        }
    }

    pub fn page(&mut self, kind: Kind) -> Vec<u8> {
        let engine = self.sound(kind).engine().expect("sound tables");
        let page = engine.page_bytes();
        let prng = &mut self.prng;
        if kind == Kind::Twice {
            // The second time it may be no text any more.
            let lines = with_lines(&page, |lines| twist(prng, lines));
            let kind = prng.pick(&[
                Kind::Byte,
                Kind::Digits,
                Kind::Line,
                Kind::Tail,
                Kind::Cut,
                Kind::Mark,
                Kind::Year,
            ]);
            return changed(prng, kind, lines);
        }
        changed(prng, kind, page)
    }
}

impl Iterator for Pages {
    type Item = (Kind, Vec<u8>);

    fn next(&mut self) -> Option<(Kind, Vec<u8>)> {
        let weights: Vec<u64> = KINDS.iter().map(|(_, weight)| *weight).collect();
        let (kind, _) = KINDS[self.prng.weighted(&weights)];
        Some((kind, self.page(kind)))
    }
}

fn with_lines(page: &[u8], change: impl FnOnce(&mut Lines)) -> Vec<u8> {
    let mut lines = lines_of(page);
    change(&mut lines);
    bytes_of(&lines)
}

/// The page of sound tables with what makes it one of this kind.
pub fn changed(prng: &mut Prng, kind: Kind, mut page: Vec<u8>) -> Vec<u8> {
    match kind {
        Kind::Reached | Kind::Unreached | Kind::Twice => {}
        Kind::Twisted => return with_lines(&page, |lines| twist(prng, lines)),
        Kind::Absurd => return with_lines(&page, |lines| absurd(prng, lines)),
        Kind::Line => return with_lines(&page, |lines| blot::line(prng, lines)),
        Kind::Mark => return with_lines(&page, |lines| blot::mark(prng, lines)),
        Kind::Year => return with_lines(&page, |lines| blot::year(prng, lines)),
        Kind::Digits => return with_lines(&page, |lines| blot::digits(prng, lines)),
        Kind::Misspelt => return with_lines(&page, |lines| blot::misspelt(prng, lines)),
        Kind::Misshapen => return with_lines(&page, |lines| blot::misshapen(prng, lines)),
        Kind::Miscounted => return with_lines(&page, |lines| blot::miscounted(prng, lines)),
        Kind::Byte => blot::byte(prng, &mut page),
        Kind::Cut => blot::cut(prng, &mut page),
        Kind::Tail => blot::tail(prng, &mut page),
        Kind::Ends => blot::ends(prng, &mut page),
    }
    page
}
