//! Two texts at the reading desk: what the library says of them and what the engine does.

use crate::ffi::{self, Reply, ANSWER};
use crate::show;
use crate::tables::{answered, margins_kept, reply_of, with_margins, within, FILL};
use comparer::asks::{asks, Ask};
use comparer::looking::{every_pair, listed, shortest, texts_shown};
use comparer::prng::Prng;
use comparer::tally;
use comparer::texts::{Pair, Pairs};
use engine::{Desk, Mark};

/// The number of a refusal, 12.
const TOO_SHORT: u64 = engine::answer::TOO_SHORT;

/// What is asked on a pair, and the bytes that are lent for the answer.
pub struct Case {
    pub ask: Ask,
    pub answer: Vec<u8>,
}

/// What the call hands back, and what it leaves; of a find there is no list.
#[derive(Clone, Debug, PartialEq, Eq)]
pub struct Outcome {
    pub number: u64,
    pub list: Vec<u64>,
    pub answer: Vec<u8>,
}

pub fn engine_side(desk: &Desk, case: &Case) -> Outcome {
    let mut list = match &case.ask {
        Ask::Find { .. } => Vec::new(),
        Ask::List { lent } => lent.clone(),
    };
    if case.answer.len() < ANSWER {
        return Outcome { number: TOO_SHORT, list, answer: case.answer.clone() };
    }
    let reply = match &case.ask {
        Ask::Find { key, occurrence } => {
            let found = desk.find(key, *occurrence);
            let mark = match found.mark {
                Mark::Original => 0,
                Mark::Copy => 1,
            };
            let Reply { number, values: [value, ..] } = reply_of(found.answer);
            Reply { number, values: [value, mark, found.begin as u64, found.end as u64, 0, 0] }
        }
        Ask::List { .. } => reply_of(desk.list(&mut list)),
    };
    Outcome { number: reply.number, list, answer: answered(&reply, &case.answer) }
}

/// Before a text or a key and behind it, so that whoever reads on finds a line there.
const BEFORE: &[u8] = b"a=1\nb=1\n\na";
const BEHIND: &[u8] = b"a=1\nb=1\n=\na";

/// Around a list, to see whether the library keeps within.
const PLACES: [u64; 4] = [u64::from_le_bytes([FILL; 8]); 4];

fn surrounded(bytes: &[u8]) -> Vec<u8> {
    [BEFORE, bytes, BEHIND].concat()
}

fn inner(lent: &[u8]) -> &[u8] {
    &lent[BEFORE.len()..lent.len() - BEHIND.len()]
}

/// A pair as it is lent to the library.
pub struct Lent {
    original: Vec<u8>,
    copy: Vec<u8>,
}

impl Lent {
    pub fn new(pair: &Pair) -> Lent {
        Lent { original: surrounded(&pair.original), copy: surrounded(&pair.copy) }
    }

    fn is(&self, pair: &Pair) -> bool {
        let kept = |lent: &[u8], text: &[u8]| {
            inner(lent) == text && lent.starts_with(BEFORE) && lent.ends_with(BEHIND)
        };
        kept(&self.original, &pair.original) && kept(&self.copy, &pair.copy)
    }
}

/// The library's side, or what is wrong with it whatever the engine says.
pub fn library_side(pair: &Pair, lent: &Lent, case: &Case) -> Result<Outcome, String> {
    let (original, copy) = (inner(&lent.original), inner(&lent.copy));
    let mut answer = with_margins(&case.answer);
    let (number, list) = match &case.ask {
        Ask::Find { key, occurrence } => {
            let lent = surrounded(key);
            let answer = within(&mut answer);
            let number = ffi::find_bytes(original, copy, inner(&lent), *occurrence, answer);
            if lent != surrounded(key) {
                return Err(String::from("board_find writes into the key"));
            }
            (number, Vec::new())
        }
        Ask::List { lent } => {
            let mut places = [&PLACES, lent.as_slice(), &PLACES].concat();
            let end = places.len() - PLACES.len();
            let list = &mut places[PLACES.len()..end];
            let number = ffi::list_bytes(original, copy, list, within(&mut answer));
            let list = list.to_vec();
            if !places.starts_with(&PLACES) || !places.ends_with(&PLACES) {
                return Err(String::from("board_list writes outside its list"));
            }
            (number, list)
        }
    };
    if !margins_kept(&answer) {
        return Err(String::from("it writes outside the bytes of the answer"));
    }
    if !lent.is(pair) {
        return Err(String::from("it writes into the texts"));
    }
    Ok(Outcome { number, list, answer: within(&mut answer).to_vec() })
}

/// How much of what was compared.
#[derive(Default)]
pub struct Count {
    pub tally: tally::Count,
    /// Finds and lists on the fixed pairs, and those on the others.
    pub fixed: u64,
    pub calls: u64,
    /// Too few bytes for the answer, and more than it needs.
    no_answer: u64,
    longer: u64,
}

impl Count {
    fn lent(&mut self, case: &Case) {
        self.no_answer += u64::from(case.answer.len() < ANSWER);
        self.longer += u64::from(case.answer.len() > ANSWER);
    }

    pub fn print(&self) -> String {
        let mut text = self.tally.print();
        text += &format!("{:32}{:>10}\n", "too few bytes for the answer", self.no_answer);
        text += &format!("{:32}{:>10}\n", "more bytes than it needs", self.longer);
        text + &format!("{:32}{:>10}\n", "calls on fixed pairs", self.fixed)
    }
}

/// Compares the two sides on a pair; the report where they differ, with a pair made short.
fn check(pair: &Pair, desk: &Desk, lent: &Lent, case: &Case, what: &str) -> Result<(), String> {
    if library_side(pair, lent, case).as_ref() == Ok(&engine_side(desk, case)) {
        return Ok(());
    }
    let differs = |pair: &Pair| {
        let expected = engine_side(&Desk::new(&pair.original, &pair.copy), case);
        Ok(library_side(pair, &Lent::new(pair), case).as_ref() != Ok(&expected))
    };
    let short = shortest(pair, differs)?;
    let title = format!("difference on {}; the shortest pair found:\n", what);
    Err(title + &report(&short, case))
}

/// Finds and lists on every pair of texts of three letters and up to so many bytes.
const MOST_LETTERS: usize = 4;
const FIXED_KEYS: [&[u8]; 8] = [b"", b"a", b"aa", b"=", b"a=", b"\n", b"a\na", b"b"];

fn agree_fixed(total: &mut Count) -> Result<(), String> {
    for pair in every_pair(b"a=\n", MOST_LETTERS) {
        let (desk, lent) = (Desk::new(&pair.original, &pair.copy), Lent::new(&pair));
        let sizes = 0..listed(&desk) + 2;
        let mut all: Vec<Ask> = sizes.map(|size| Ask::List { lent: vec![77; size] }).collect();
        for key in FIXED_KEYS {
            let find = |occurrence: u64| Ask::Find { key: key.to_vec(), occurrence };
            all.extend([0, 1, 2, 3].map(find));
        }
        for ask in all {
            let case = Case { ask, answer: vec![FILL; ANSWER] };
            check(&pair, &desk, &lent, &case, "a fixed pair")?;
            total.fixed += 1;
        }
    }
    Ok(())
}

/// Compares the fixed pairs, and so many of this seed. The report of the first that differs, if any
/// does.
pub fn agree(seed: u64, count: u64, total: &mut Count) -> Result<(), String> {
    agree_fixed(total)?;
    let mut pairs = Pairs::new(seed);
    for place in 1..=count {
        let (kind, relation, pair) = pairs.of_any_kind();
        let (desk, lent) = (Desk::new(&pair.original, &pair.copy), Lent::new(&pair));
        let listed = listed(&desk);
        total.tally.pair(kind, relation, &pair, &desk);
        let kinds = format!("{}, {}", kind.what(), relation.what());
        let what = format!("pair {} of seed {} ({})", place, seed, kinds);
        for ask in asks(pairs.prng(), &pair, listed) {
            let case = Case { ask, answer: answer(pairs.prng()) };
            check(&pair, &desk, &lent, &case, &what)?;
            total.tally.ask(&desk, listed, &case.ask);
            total.lent(&case);
            total.calls += 1;
        }
    }
    Ok(())
}

/// Mostly as many bytes as are needed, now and then fewer or more, none of them 0.
fn answer(prng: &mut Prng) -> Vec<u8> {
    let any = prng.below(ANSWER as u64) as usize;
    let size = match prng.below(24) {
        0 => prng.pick(&[0, 8, any, ANSWER - 1]),
        1 => prng.pick(&[ANSWER + 1, ANSWER + 8, 100]),
        _ => ANSWER,
    };
    (0..size).map(|_| prng.between(1, 255) as u8).collect()
}

/// Every length of an answer with every length of a list, and with finds that end in each way.
pub fn lengths() -> Result<(), String> {
    let pair = Pair { original: b"a=1\nb=1\nc=1".to_vec(), copy: b"b=1\nd=1\n".to_vec() };
    let (desk, lent) = (Desk::new(&pair.original, &pair.copy), Lent::new(&pair));
    let find = |key: &str| Ask::Find { key: key.as_bytes().to_vec(), occurrence: 1 };
    let mut all = ["a", "d", "e", ""].map(find).to_vec();
    all.extend((0..5).map(|size| Ask::List { lent: vec![77; size] }));
    for ask in all {
        for size in 0..2 * ANSWER {
            let case = Case { ask: ask.clone(), answer: vec![FILL; size] };
            check(&pair, &desk, &lent, &case, &format!("{} bytes for the answer", size))?;
        }
    }
    Ok(())
}

/// The most places of a list that are shown.
const MOST_SHOWN: usize = 40;

fn side(name: &str, ask: &Ask, outcome: &Outcome) -> String {
    let mut text = format!("{} hands back {}\n", name, outcome.number);
    text += &format!("    {}\n", show::answer(&outcome.answer));
    if let Ask::List { lent } = ask {
        let front = &outcome.list[..outcome.list.len().min(MOST_SHOWN)];
        let kept = if outcome.list == *lent { ", as it was" } else { "" };
        text += &format!("    the list: {:?}{}\n", front, kept);
    }
    text
}

fn report(pair: &Pair, case: &Case) -> String {
    let mut text = texts_shown(pair);
    text += &format!("asked: {}; {} bytes for the answer\n", case.ask.what(), case.answer.len());
    let expected = engine_side(&Desk::new(&pair.original, &pair.copy), case);
    text += &side("the engine", &case.ask, &expected);
    match library_side(pair, &Lent::new(pair), case) {
        Ok(outcome) => text + &side("the library", &case.ask, &outcome),
        Err(message) => text + &format!("the library: {}\n", message),
    }
}
