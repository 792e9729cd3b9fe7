//! Both sides of a find and of a list, to be timed on the same two texts.

use crate::clock::{race, Contestant};
use crate::ffi;
use crate::tables::reply_of;
use comparer::texts::Pair;
use engine::desk;

/// What is timed on two texts.
#[derive(Clone, Copy)]
pub enum What<'a> {
    /// A list that has room for every line.
    List,
    /// The first line with this key.
    Find(&'a [u8]),
}

/// What one side does, as a number; a list is lent to it.
type Call<'a> = Box<dyn Fn(&Pair, &mut [u64]) -> u64 + 'a>;

/// One side. It is called so often in one piece of work.
struct Look<'a> {
    pair: &'a Pair,
    list: Vec<u64>,
    call: Call<'a>,
    times: usize,
}

impl Contestant for Look<'_> {
    fn prepare(&mut self) {
        self.list.fill(0);
    }

    fn work(&mut self) -> u64 {
        let mut total: u64 = 0;
        for _ in 0..self.times {
            let done = (self.call)(self.pair, &mut self.list);
            total = total.wrapping_mul(31).wrapping_add(done);
        }
        total
    }
}

fn library(what: What<'_>) -> Call<'_> {
    match what {
        What::List => Box::new(|pair, list| {
            let reply = ffi::list(&pair.original, &pair.copy, list);
            reply.number * 1_000_000 + reply.values[0]
        }),
        What::Find(key) => Box::new(move |pair, _| {
            let reply = ffi::find(&pair.original, &pair.copy, key, 1);
            reply.number * 1_000_000 + reply.values[2] + reply.values[3]
        }),
    }
}

fn engine(what: What<'_>) -> Call<'_> {
    match what {
        What::List => Box::new(|pair, list| {
            let reply = reply_of(desk::list(&pair.original, &pair.copy, list));
            reply.number * 1_000_000 + reply.values[0]
        }),
        What::Find(key) => Box::new(move |pair, _| {
            let found = desk::find(&pair.original, &pair.copy, key, 1);
            found.answer.number * 1_000_000 + (found.begin + found.end) as u64
        }),
    }
}

/// Nanoseconds a call on each pair: the library, the engine. All of them run in the same rounds.
pub fn times(rounds: usize, what: What, pairs: &[&Pair]) -> Result<Vec<[f64; 2]>, String> {
    let mut sides: Vec<Box<dyn Contestant + '_>> = Vec::new();
    let mut often = Vec::new();
    for pair in pairs {
        let places = pair.original.iter().filter(|byte| **byte == b'\n').count() + 1;
        // Short work is done often at once, so that the clock is read seldom.
        let times = 20_000 / places + 1;
        let side = |call| Look { pair, list: vec![0; places], call, times };
        let (mut ours, mut theirs) = (side(library(what)), side(engine(what)));
        if ours.work() != theirs.work() || ours.list != theirs.list {
            return Err(String::from("the two sides look differently; run `agree desk`"));
        }
        often.push(times as f64);
        sides.push(Box::new(ours));
        sides.push(Box::new(theirs));
    }
    let times = race(rounds, &mut sides);
    Ok(times.chunks(2).zip(often).map(|(two, often)| [two[0] / often, two[1] / often]).collect())
}
