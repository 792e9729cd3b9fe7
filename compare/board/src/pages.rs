//! A page read back: what the library makes of it and what the engine does.

use crate::ffi::{self, Reply, ANSWER, TABLES};
use crate::pack::{pack, RECORD, WITHOUT_MARKS, WITHOUT_YEAR};
use crate::show;
use crate::tables::{answered, margins_kept, reply_of, with_margins, within, FILL};
use comparer::absurd::{every_byte, fixed};
use comparer::pages::Pages;
use comparer::prng::Prng;
use comparer::reading::{self, page_lines};
use engine::Answer;

/// The number of a refusal, 12.
const TOO_SHORT: u64 = engine::answer::TOO_SHORT;

/// A page, and the bytes that are lent for the tables and the answer.
pub struct Case {
    pub page: Vec<u8>,
    pub tables: Vec<u8>,
    pub answer: Vec<u8>,
}

/// What the call hands back, and what it leaves.
#[derive(Clone, PartialEq, Eq)]
pub struct Outcome {
    pub number: u64,
    pub tables: Vec<u8>,
    pub answer: Vec<u8>,
}

/// The engine's side: what the page reads as, and what the call comes to.
pub fn engine_side(case: &Case) -> (Answer, Outcome) {
    let (raw, answer) = engine::read(&case.page);
    let mut tables = case.tables.clone();
    let reply = if case.answer.len() < ANSWER || case.tables.len() < TABLES {
        Reply::new(TOO_SHORT, TABLES as u64)
    } else {
        tables[..TABLES].copy_from_slice(&pack(&raw));
        reply_of(answer)
    };
    (answer, Outcome { number: reply.number, tables, answer: answered(&reply, &case.answer) })
}

/// Before the page and behind it, so that whoever reads on finds lines there.
const BEFORE: &[u8] = b"page=rte2\nclock=1\n";
const BEHIND: &[u8] = b"0\n=-:1,2\nend=page\nend=page\nend=page\n";

/// The library's side, or what is wrong with it whatever the engine says.
pub fn library_side(case: &Case) -> Result<Outcome, String> {
    let lent = [BEFORE, &case.page, BEHIND].concat();
    let mut tables = with_margins(&case.tables);
    let mut answer = with_margins(&case.answer);
    let page = &lent[BEFORE.len()..lent.len() - BEHIND.len()];
    let number = ffi::read_bytes(page, within(&mut tables), within(&mut answer));
    if ![&tables, &answer].iter().all(|bytes| margins_kept(bytes)) {
        return Err(String::from("board_read writes outside its buffers"));
    }
    if lent != [BEFORE, &case.page, BEHIND].concat() {
        return Err(String::from("board_read writes into the page"));
    }
    let [tables, answer] = [&mut tables, &mut answer].map(|bytes| within(bytes).to_vec());
    Ok(Outcome { number, tables, answer })
}

/// How much of what was compared.
#[derive(Default)]
pub struct Count {
    kinds: reading::Count,
    /// Fixed pages: 0, 15 with a line, 15 with 0.
    fixed: [u64; 3],
    /// Buffers that are too short, for the tables and for the answer, and longer ones.
    short: u64,
    no_answer: u64,
    longer: u64,
}

impl Count {
    fn lent(&mut self, case: &Case) {
        let (tables, answer) = (case.tables.len(), case.answer.len());
        self.no_answer += u64::from(answer < ANSWER);
        self.short += u64::from(answer >= ANSWER && tables < TABLES);
        self.longer += u64::from(answer >= ANSWER && tables > TABLES);
    }

    /// 0, 15 with a line, 15 with 0.
    pub fn sums(&self) -> [u64; 3] {
        let mut sums = self.kinds.sums();
        for (sum, count) in sums.iter_mut().zip(self.fixed) {
            *sum += count;
        }
        sums
    }

    pub fn print(&self) -> String {
        let [read, line, none] = self.fixed;
        let fixed = ("fixed pages", read + line + none, read, line, none);
        let (name, all, read, line, none) = fixed;
        let mut text = self.kinds.print();
        text += &format!("{:32}{:>10}{:>10}{:>12}{:>10}\n", name, all, read, line, none);
        text += &format!("{:32}{:>10}\n", "too few bytes for the answer", self.no_answer);
        text += &format!("{:32}{:>10}\n", "too few bytes for the tables", self.short);
        text + &format!("{:32}{:>10}\n", "more bytes than they need", self.longer)
    }
}

/// Compares the two sides on a case; the report where they differ.
fn check(case: &Case, what: &str, count: &mut Count) -> Result<Answer, String> {
    let (answer, expected) = engine_side(case);
    let got = library_side(case);
    if got.as_ref() == Ok(&expected) {
        count.lent(case);
        return Ok(answer);
    }
    Err(format!("difference on {}:\n", what) + &report(case, &expected, &got))
}

/// Compares the fixed pages, every byte in the place of each byte of one page, and so many pages
/// of this seed. The report of the first that differs, if any does.
pub fn agree(seed: u64, count: u64, total: &mut Count) -> Result<(), String> {
    let bytes = every_byte(0..=255).map(|page| ("every byte at every place", page));
    for (what, page) in fixed().into_iter().chain(bytes) {
        let case = Case { page, tables: vec![FILL; TABLES], answer: vec![FILL; ANSWER] };
        let answer = check(&case, &format!("a fixed page ({})", what), total)?;
        total.fixed[reading::class(answer)] += 1;
    }
    let mut prng = Prng::new(seed);
    for (place, (kind, page)) in Pages::new(seed).take(count as usize).enumerate() {
        let case = lend(&mut prng, page);
        let what = format!("page {} of seed {}, {}", place + 1, seed, kind.what());
        let answer = check(&case, &what, total)?;
        total.kinds.add(kind, &case.page, answer);
    }
    Ok(())
}

/// Mostly as many bytes as are needed, now and then fewer or more, none of them 0.
fn lend(prng: &mut Prng, page: Vec<u8>) -> Case {
    let any = prng.below(TABLES as u64) as usize;
    let tables = match prng.below(24) {
        0 => prng.pick(&[0, 1, any, WITHOUT_MARKS, WITHOUT_YEAR, TABLES - 1, TABLES - 1]),
        1 | 2 => prng.pick(&[TABLES + 1, TABLES + RECORD, 2 * TABLES]),
        _ => TABLES,
    };
    let any = prng.below(ANSWER as u64) as usize;
    let answer = match prng.below(24) {
        0 => prng.pick(&[0, 8, any, ANSWER - 1]),
        1 => prng.pick(&[ANSWER + 1, ANSWER + 8, 100]),
        _ => ANSWER,
    };
    let mut bytes = |size: usize| (0..size).map(|_| prng.between(1, 255) as u8).collect();
    Case { page, tables: bytes(tables), answer: bytes(answer) }
}

/// Every pair of a length of tables and one of the answer, on a page that is read and on ones that
/// are not.
pub fn lengths(total: &mut Count) -> Result<(), String> {
    let example = comparer::absurd::EXAMPLE.as_bytes();
    for page in [example, &example[1..], b""] {
        for size in
            [0, 1, 14, WITHOUT_MARKS, WITHOUT_YEAR, TABLES - 1, TABLES, TABLES + 1, 2 * TABLES]
        {
            for answer_size in [0, 8, ANSWER - 1, ANSWER, ANSWER + 1, 2 * ANSWER] {
                let (tables, answer) = (vec![FILL; size], vec![FILL; answer_size]);
                let case = Case { page: page.to_vec(), tables, answer };
                let what = format!("{} bytes for tables, {} for the answer", size, answer_size);
                check(&case, &what, total)?;
            }
        }
    }
    Ok(())
}

fn block(text: &mut String, title: &str, list: &[String]) {
    *text += &format!("{}:\n", title);
    for line in list {
        *text += &format!("    {}\n", line);
    }
}

fn side(text: &mut String, name: &str, case: &Case, outcome: &Outcome) {
    let list = [format!("number {}", outcome.number), show::answer(&outcome.answer)];
    block(text, &format!("{} says", name), &list);
    let tables = match outcome.tables.get(..TABLES) {
        Some(_) if outcome.tables == case.tables => vec![String::from("as they were")],
        Some(front) => show::tables(front),
        None => vec![format!("{} bytes", outcome.tables.len())],
    };
    block(text, "  the tables after it", &tables);
}

fn report(case: &Case, expected: &Outcome, got: &Result<Outcome, String>) -> String {
    let mut text = String::new();
    block(&mut text, "page", &page_lines(&case.page));
    let lent =
        format!("{} bytes for tables, {} for the answer", case.tables.len(), case.answer.len());
    block(&mut text, "lent", &[lent]);
    side(&mut text, "the engine", case, expected);
    match got {
        Ok(outcome) => {
            side(&mut text, "the library", case, outcome);
            if outcome.tables != expected.tables {
                let differ = show::places(&expected.tables, &outcome.tables);
                block(&mut text, "  bytes of tables that differ", &differ);
            }
        }
        Err(message) => block(&mut text, "the library", std::slice::from_ref(message)),
    }
    text
}
