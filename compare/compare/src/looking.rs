//! A reading desk held against the engine's, on pairs of texts of every kind.

use crate::asks::{asks, Ask};
use crate::prng::Prng;
use crate::reading::page_lines;
use crate::shrink::shrink;
use crate::texts::{every, Pair, Pairs};
use engine::{Desk, Value};
use faults::InPrint;
use std::panic::{catch_unwind, AssertUnwindSafe};

/// The pairs that the tests use and that `compare texts` takes unless it is told another count.
/// Within them every wrong desk is found but those that are wrong in what they print.
pub const CI_PAIRS: usize = 6_000;

/// The letters of the fixed pairs, and their most bytes.
const LETTERS: &[u8] = b"a=\n";
const MOST_LETTERS: usize = 3;

/// A pair, and what is asked on it, each with what is right.
pub struct Trial {
    pub what: String,
    pub pair: Pair,
    pub asked: Vec<(Ask, String)>,
}

/// What the engine's desk says, in print.
pub const ENGINE: InPrint = InPrint {
    find: |original, copy, key, occurrence| {
        format!("{:?}", Desk::new(original, copy).find(key, occurrence))
    },
    list: |original, copy, list| format!("{:?}", Desk::new(original, copy).list(list)),
    print: |original, copy, asked| Desk::new(original, copy).print(asked),
};

/// How many lines are listed: with no place at all a list still tells it.
pub fn listed(desk: &Desk) -> usize {
    match desk.list(&mut []).value {
        Value::Number(needed) => needed as usize,
        Value::Time(_) => 0,
    }
}

fn trial(prng: &mut Prng, what: String, pair: Pair) -> Trial {
    let listed = listed(&Desk::new(&pair.original, &pair.copy));
    let right = |ask: Ask| {
        let said = says(&ENGINE, &pair, &ask);
        (ask, said)
    };
    let asked = asks(prng, &pair, listed).into_iter().map(right).collect();
    Trial { what, pair, asked }
}

/// So many pairs of this seed.
pub fn trials(seed: u64, count: usize) -> impl Iterator<Item = Trial> {
    let mut pairs = Pairs::new(seed);
    (0..count).map(move |_| {
        let (kind, relation, pair) = pairs.of_any_kind();
        trial(pairs.prng(), format!("{}, {}", kind.what(), relation.what()), pair)
    })
}

/// Every pair of texts of three letters and up to three bytes.
pub fn fixed_trials() -> impl Iterator<Item = Trial> {
    let mut prng = Prng::new(1);
    every_pair(LETTERS, MOST_LETTERS).map(move |pair| trial(&mut prng, String::from("fixed"), pair))
}

pub fn every_pair(letters: &[u8], most: usize) -> impl Iterator<Item = Pair> {
    let all = every(letters, most);
    let other = all.clone();
    all.into_iter().flat_map(move |original| {
        let copies = other.clone().into_iter();
        copies.map(move |copy| Pair { original: original.clone(), copy })
    })
}

/// What the desk says, and what the lent list holds then; or that it says nothing.
pub fn says(desk: &InPrint, pair: &Pair, ask: &Ask) -> String {
    let Pair { original, copy } = pair;
    let said = || match ask {
        Ask::Find { key, occurrence } => (desk.find)(original, copy, key, *occurrence),
        Ask::List { lent } => {
            let mut list = lent.clone();
            let answer = (desk.list)(original, copy, &mut list);
            let kept = list.iter().zip(lent).rev().take_while(|(now, then)| now == then).count();
            let put = &list[..list.len() - kept];
            format!("{}, {:?} put and {} places kept", answer, put, kept)
        }
    };
    let stopped = String::from("(it stops without an answer)");
    catch_unwind(AssertUnwindSafe(said)).unwrap_or(stopped)
}

/// A pair and what was asked on it, where two desks differ.
pub struct Difference {
    /// Which of the pairs.
    pub place: usize,
    pub what: String,
    pub pair: Pair,
    pub ask: Ask,
}

/// The first of these pairs on which the desk says anything but what is right.
pub fn first_difference<'a>(
    desk: &InPrint,
    trials: impl Iterator<Item = &'a Trial>,
) -> Option<Difference> {
    for (place, Trial { what, pair, asked }) in trials.enumerate() {
        let wrong = asked.iter().find(|(ask, right)| says(desk, pair, ask) != *right);
        if let Some((ask, _)) = wrong {
            let (what, pair, ask) = (what.clone(), pair.clone(), ask.clone());
            return Some(Difference { place, what, pair, ask });
        }
    }
    None
}

/// A shorter pair that still fails, by dropping lines of either text.
pub fn shortest(
    pair: &Pair,
    mut fails: impl FnMut(&Pair) -> Result<bool, String>,
) -> Result<Pair, String> {
    let mut pair = pair.clone();
    pair.original = shrink(&pair.original, |shorter| {
        fails(&Pair { original: shorter.to_vec(), copy: pair.copy.clone() })
    })?;
    pair.copy = shrink(&pair.copy, |shorter| {
        fails(&Pair { original: pair.original.clone(), copy: shorter.to_vec() })
    })?;
    Ok(pair)
}

/// The pair is made short first.
pub fn report(desk: &InPrint, difference: &Difference) -> Result<String, String> {
    let Difference { place, what, pair, ask } = difference;
    let differs = |pair: &Pair| Ok(says(desk, pair, ask) != says(&ENGINE, pair, ask));
    let short = shortest(pair, differs)?;
    let mut text = format!("difference on pair {} ({}); the shortest found:\n", place + 1, what);
    text += &texts_shown(&short);
    text += &format!("asked: {}\n", ask.what());
    text += &format!("the engine says: {}\n", says(&ENGINE, &short, ask));
    text += &format!("the other says:  {}\n", says(desk, &short, ask));
    Ok(text)
}

pub fn texts_shown(pair: &Pair) -> String {
    let mut text = String::new();
    for (title, bytes) in [("original", &pair.original), ("copy", &pair.copy)] {
        text += &format!("{}:\n", title);
        for line in page_lines(bytes) {
            text += &format!("    {}\n", line);
        }
    }
    text
}
