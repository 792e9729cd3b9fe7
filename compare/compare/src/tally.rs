//! How often what came up, of pairs of texts and of what is asked on them.

use crate::asks::{asks, Ask};
use crate::looking::listed;
use crate::texts::{Kind, Pair, Pairs, Relation};
use engine::answer::{NOT_ALLOWED, NO_LINE};
use engine::desk::key;
use engine::sheet::lines;
use engine::{Desk, Mark};
use std::collections::BTreeMap;

/// How much of what was compared.
#[derive(Default)]
pub struct Count {
    /// Pairs of each kind, by what the copy is.
    pub kinds: BTreeMap<Kind, [u64; 4]>,
    rows: BTreeMap<&'static str, u64>,
}

/// What may come up; each of it has to.
pub const ROWS: [&str; 16] = [
    "found in the original",
    "found in the copy",
    "17: line in neither",
    "3: empty key",
    "3: occurrence 0",
    "listed: nothing",
    "listed: some lines",
    "listed, places left",
    "12: too few places",
    "counterpart in its place",
    "counterpart elsewhere",
    "counterpart differs",
    "counterpart missing",
    "empty key, in the original",
    "no key, in the original",
    "no byte 10 at the end",
];

impl Count {
    /// So many pairs of this seed, with what is asked on them.
    pub fn of_pairs(seed: u64, count: usize) -> Count {
        let mut total = Count::default();
        let mut pairs = Pairs::new(seed);
        for _ in 0..count {
            let (kind, relation, pair) = pairs.of_any_kind();
            let desk = Desk::new(&pair.original, &pair.copy);
            let listed = listed(&desk);
            total.pair(kind, relation, &pair, &desk);
            for ask in asks(pairs.prng(), &pair, listed) {
                total.ask(&desk, listed, &ask);
            }
        }
        total
    }

    fn row(&mut self, name: &'static str, times: u64) {
        *self.rows.entry(name).or_insert(0) += times;
    }

    /// A pair, with the engine's desk on it.
    pub fn pair(&mut self, kind: Kind, relation: Relation, pair: &Pair, desk: &Desk) {
        self.kinds.entry(kind).or_default()[relation as usize] += 1;
        for (place, line) in &desk.original {
            let row = match desk.copy.get(place) {
                None => "counterpart missing",
                Some(other) if other.bytes != line.bytes => "counterpart differs",
                Some(other) if other.number != line.number => "counterpart elsewhere",
                Some(_) => "counterpart in its place",
            };
            self.row(row, 1);
            self.row("empty key, in the original", u64::from(place.0.is_empty()));
        }
        let original = &pair.original;
        let keyless = lines(original).iter().filter(|line| key(line).is_none()).count();
        self.row("no key, in the original", keyless as u64);
        let unended = !original.is_empty() && !original.ends_with(b"\n");
        self.row("no byte 10 at the end", u64::from(unended));
    }

    /// What is asked on a pair of which so many lines are listed.
    pub fn ask(&mut self, desk: &Desk, listed: usize, ask: &Ask) {
        let row = match ask {
            Ask::Find { key, occurrence } => {
                let found = desk.find(key, *occurrence);
                match (found.answer.number, found.mark) {
                    (NOT_ALLOWED, _) if key.is_empty() => "3: empty key",
                    (NOT_ALLOWED, _) => "3: occurrence 0",
                    (NO_LINE, _) => "17: line in neither",
                    (_, Mark::Original) => "found in the original",
                    (_, Mark::Copy) => "found in the copy",
                }
            }
            Ask::List { lent } if lent.len() < listed => "12: too few places",
            Ask::List { .. } if listed == 0 => "listed: nothing",
            Ask::List { lent } if lent.len() > listed => "listed, places left",
            Ask::List { .. } => "listed: some lines",
        };
        self.row(row, 1);
    }

    /// How often each row came up, in their order.
    pub fn rows(&self) -> [u64; 16] {
        ROWS.map(|name| self.rows.get(name).copied().unwrap_or(0))
    }

    pub fn pairs(&self) -> u64 {
        self.kinds.values().flatten().sum()
    }

    pub fn print(&self) -> String {
        let mut text = format!("{:32}{:>10}", "pairs", "all");
        for relation in Relation::ALL {
            text += &format!("{:>12}", relation.what());
        }
        let mut sums = [0; 4];
        let row = |name: &str, counts: &[u64; 4]| {
            let each: String = counts.iter().map(|count| format!("{:>12}", count)).collect();
            format!("\n{:32}{:>10}{}", name, counts.iter().sum::<u64>(), each)
        };
        for (kind, counts) in &self.kinds {
            text += &row(kind.what(), counts);
            sums.iter_mut().zip(counts).for_each(|(sum, count)| *sum += count);
        }
        text += &row("all", &sums);
        text += "\n";
        for (name, times) in ROWS.iter().zip(self.rows()) {
            text += &format!("\n{:32}{:>10}", name, times);
        }
        text + "\n"
    }
}
