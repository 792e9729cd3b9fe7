//! One console line on any tables: what the library makes of it and what the engine does.

use crate::ask;
use crate::ffi::{self, Reply, ANSWER, TABLES};
use crate::harm;
use crate::pack::{formed, in_form, pack, WITHOUT_MARKS, WITHOUT_YEAR};
use crate::show;
use comparer::leaps;
use comparer::make;
use comparer::prng::Prng;
use comparer::report::shown;
use comparer::turns;
use engine::raw::{Raw, RawRecord};
use engine::tables::{EARLIEST_YEAR, LATEST_YEAR, USUAL_YEAR};
use engine::{parse, Answer, Request, Value};
use std::collections::BTreeMap;
use std::convert::TryInto;

/// Where tables come from.
#[derive(Clone, Copy, Debug, PartialEq, Eq, PartialOrd, Ord)]
pub enum Kind {
    Reached,
    Unreached,
    Byte,
    Bit,
    Exchanged,
    Reformed,
    Resized,
    Noise,
}

impl Kind {
    pub fn what(self) -> &'static str {
        match self {
            Kind::Reached => "sound, reached by a script",
            Kind::Unreached => "sound, reached by none",
            Kind::Byte => "one byte changed",
            Kind::Bit => "one bit changed",
            Kind::Exchanged => "fields exchanged",
            Kind::Reformed => "sound, in another form",
            Kind::Resized => "of another length",
            Kind::Noise => "noise",
        }
    }
}

/// Of twenty tables, five are reached, four not, and so on.
const KINDS: [(Kind, u64); 8] = [
    (Kind::Reached, 5),
    (Kind::Unreached, 4),
    (Kind::Byte, 3),
    (Kind::Bit, 2),
    (Kind::Exchanged, 3),
    (Kind::Reformed, 1),
    (Kind::Resized, 1),
    (Kind::Noise, 1),
];

pub struct Case {
    pub kind: Kind,
    /// As they are handed to the library: not always in packed form, nor of the right length.
    pub tables: Vec<u8>,
    pub line: Vec<u8>,
    pub page: Vec<u8>,
    /// Mostly as long as an answer.
    pub answer: Vec<u8>,
}

/// What a call hands back, and what it leaves.
#[derive(Clone, PartialEq, Eq)]
pub struct Outcome {
    pub number: u64,
    pub tables: Vec<u8>,
    pub page: Vec<u8>,
    pub answer: Vec<u8>,
}

/// Cases without end; the same ones for the same seed.
pub struct Cases {
    prng: Prng,
    /// Sound tables of one script that have not been taken yet.
    reached: Vec<Raw>,
    /// Ticks alone are asked for, and timers come due soon.
    ticks: bool,
}

impl Cases {
    pub fn new(seed: u64) -> Cases {
        Cases { prng: Prng::new(seed), reached: Vec::new(), ticks: false }
    }

    /// The same kinds of tables, and mostly `TICK,n`.
    pub fn of_ticks(seed: u64) -> Cases {
        Cases { ticks: true, ..Cases::new(seed) }
    }

    fn sound(&mut self, kind: Kind) -> Raw {
        let unreached = match kind {
            Kind::Reached => false,
            Kind::Unreached => true,
            _ => self.prng.chance(1, 2),
        };
        if unreached {
            return make::unreached(&mut self.prng);
        }
        loop {
            if let Some(raw) = self.reached.pop() {
                return raw;
            }
            self.reached = make::reached(&mut self.prng, 16);
        }
    }

    pub fn next_case(&mut self) -> Case {
        let weights: Vec<u64> = KINDS.iter().map(|(_, weight)| *weight).collect();
        let (kind, _) = KINDS[self.prng.weighted(&weights)];
        self.case(kind)
    }

    pub fn case(&mut self, kind: Kind) -> Case {
        let mut raw = self.sound(kind);
        let prng = &mut self.prng;
        if self.ticks && prng.chance(2, 3) {
            make::due_soon(prng, &mut raw);
        }
        let engine = raw.engine().expect("sound tables");
        let line = if self.ticks { ask::ticks(prng, &engine) } else { ask::line(prng, &engine) };
        let size = if line == b"PAGE" || prng.chance(1, 10) {
            ask::buffer(prng, engine.page_bytes().len())
        } else {
            prng.below(40) as usize
        };
        let page = (0..size).map(|_| prng.below(256) as u8).collect();
        if kind == Kind::Exchanged {
            harm::exchange(prng, &mut raw);
        }
        let mut tables = pack(&raw);
        match kind {
            Kind::Byte => harm::change_byte(prng, &mut tables),
            Kind::Bit => harm::change_bit(prng, &mut tables),
            Kind::Noise => harm::noise(prng, &mut tables),
            Kind::Reformed => harm::reform(prng, &mut tables),
            Kind::Reached | Kind::Unreached | Kind::Exchanged | Kind::Resized => {}
        }
        let tables = match kind {
            Kind::Resized => harm::resize(prng, &tables),
            _ => tables.to_vec(),
        };
        let size = ask::answer(prng);
        // No byte that is there beforehand is one that an absent value has.
        let answer = (0..size).map(|_| prng.between(1, 255) as u8).collect();
        Case { kind, tables, line, page, answer }
    }
}

pub fn reply_of(answer: Answer) -> Reply {
    let values = match answer.value {
        Value::Number(value) => return Reply::new(answer.number, value),
        Value::Time(parts) => parts,
    };
    Reply { number: answer.number, values }
}

/// The bytes lent for an answer after it: at their front the answer, if they are enough for it.
pub fn answered(reply: &Reply, lent: &[u8]) -> Vec<u8> {
    let mut bytes = lent.to_vec();
    if let Some(front) = bytes.get_mut(..ANSWER) {
        front.copy_from_slice(&reply.bytes());
    }
    bytes
}

/// Nothing done but the answer told.
fn refused(case: &Case, number: u64) -> Outcome {
    let (tables, page) = (case.tables.clone(), case.page.clone());
    let answer = answered(&Reply::new(number, 0), &case.answer);
    Outcome { number, tables, page, answer }
}

/// The engine's side: whether the bytes are sound tables, and what the line comes to.
pub fn engine_side(case: &Case) -> (bool, Outcome) {
    let raw = match formed(&case.tables) {
        Some(raw) => raw,
        None => return (false, refused(case, 14)),
    };
    let sound = raw.sound();
    if case.answer.len() < ANSWER {
        return (sound, refused(case, if sound { 12 } else { 14 }));
    }
    let mut page = case.page.clone();
    let (after, answer) = raw.line(&case.line, &mut page);
    let reply = reply_of(answer);
    let answer = answered(&reply, &case.answer);
    (sound, Outcome { number: reply.number, tables: pack(&after).to_vec(), page, answer })
}

/// Around each buffer lent to the library, to see whether it keeps within.
const MARGIN: usize = 32;
pub const FILL: u8 = 0xa5;

pub fn with_margins(bytes: &[u8]) -> Vec<u8> {
    [&[FILL; MARGIN], bytes, &[FILL; MARGIN]].concat()
}

pub fn within(bytes: &mut [u8]) -> &mut [u8] {
    let end = bytes.len() - MARGIN;
    &mut bytes[MARGIN..end]
}

pub fn margins_kept(bytes: &[u8]) -> bool {
    let (front, back) = (&bytes[..MARGIN], &bytes[bytes.len() - MARGIN..]);
    front.iter().chain(back).all(|byte| *byte == FILL)
}

/// The library's side, or what is wrong with it whatever the engine says.
pub fn library_side(case: &Case) -> Result<(bool, Outcome), String> {
    let sound = match ffi::sound(&case.tables) {
        Some(sound) => sound,
        None => return Err(String::from("board_sound hands back neither 0 nor 1")),
    };
    let mut tables = with_margins(&case.tables);
    let mut page = with_margins(&case.page);
    let mut answer = with_margins(&case.answer);
    let number =
        ffi::ask_bytes(within(&mut tables), &case.line, within(&mut page), within(&mut answer));
    if ![&tables, &page, &answer].iter().all(|bytes| margins_kept(bytes)) {
        return Err(String::from("board_ask writes outside its buffers"));
    }
    let [tables, page, answer] =
        [&mut tables, &mut page, &mut answer].map(|bytes| within(bytes).to_vec());
    Ok((sound, Outcome { number, tables, page, answer }))
}

/// How much of what was compared.
#[derive(Default)]
pub struct Count {
    /// Of each kind: all, and those that are sound.
    kinds: BTreeMap<Kind, (u64, u64)>,
    /// By answer number, 0 to 14.
    answers: [u64; 15],
    /// Of each request on sound tables: accepted and refused.
    requests: BTreeMap<String, (u64, u64)>,
    /// Tables whose bytes are not in packed form.
    no_form: u64,
    /// Sound tables with a mark, and others that have one in a record where none may stand.
    marked: u64,
    mismarked: u64,
    /// Calls by which a program was marked, lost its mark by its ending, or went to chain 6 with it.
    marks: [u64; 3],
    /// What `TICK,n` did, on tables that a script reaches, or nearly, and on those that none does.
    leaps: [leaps::Count; 2],
    /// Start years and times, on the same.
    turns: [turns::Count; 2],
    /// Sound tables with another year than 1975, and tables with a year that FRESH does not take.
    dated: u64,
    misdated: u64,
    /// Answers with too little room, and with more than they need.
    short: u64,
    longer: u64,
}

impl Count {
    pub fn add(&mut self, case: &Case, sound: bool, outcome: &Outcome) {
        let kind = self.kinds.entry(case.kind).or_default();
        kind.0 += 1;
        kind.1 += u64::from(sound);
        if let Some(count) = self.answers.get_mut(outcome.number as usize) {
            *count += 1;
        }
        self.no_form += u64::from(!in_form(&case.tables));
        self.add_marks(case, sound, outcome);
        self.add_leaps(case, sound, outcome);
        self.add_turns(case, sound, outcome);
        self.short += u64::from(case.answer.len() < ANSWER);
        self.longer += u64::from(case.answer.len() > ANSWER);
        if sound && case.answer.len() >= ANSWER {
            // The name of the request without its fields.
            let text = parse(&case.line)
                .map_or(String::from("not understood"), |request| format!("{:?}", request));
            let name = text.split('(').next().unwrap_or_default();
            let request = self.requests.entry(name.to_string()).or_default();
            if outcome.number <= 1 {
                request.0 += 1;
            } else {
                request.1 += 1;
            }
        }
    }

    fn add_marks(&mut self, case: &Case, sound: bool, outcome: &Outcome) {
        let (before, after) = match (formed(&case.tables), formed(&outcome.tables)) {
            (Some(before), Some(after)) => (before.records, after.records),
            _ => return,
        };
        let marked = before.iter().any(|record| record.suspend);
        self.marked += u64::from(sound && marked);
        let waits = |record: &RawRecord| record.used && [3, 5].contains(&record.state);
        self.mismarked += u64::from(before.iter().any(|record| record.suspend && !waits(record)));
        let each = || before.iter().zip(&after);
        let ended = |(old, new): (&RawRecord, &RawRecord)| old.suspend && new.state == 0;
        let woken = |(old, new): (&RawRecord, &RawRecord)| old.suspend && new.state == 6;
        let happened = sound && !matches!(parse(&case.line), Some(Request::Fresh(..)));
        self.marks[0] += u64::from(each().any(|(old, new)| !old.suspend && new.suspend));
        self.marks[1] += u64::from(happened && each().any(ended));
        self.marks[2] += u64::from(happened && each().any(woken));
    }

    fn add_leaps(&mut self, case: &Case, sound: bool, outcome: &Outcome) {
        let n = match parse(&case.line) {
            Some(Request::Ticks(n)) if sound && case.answer.len() >= ANSWER => n,
            _ => return,
        };
        if let (Some(before), Some(after)) = (formed(&case.tables), formed(&outcome.tables)) {
            let made = usize::from(case.kind == Kind::Unreached);
            self.leaps[made].add(&before, n, outcome.number, &after);
        }
    }

    fn add_turns(&mut self, case: &Case, sound: bool, outcome: &Outcome) {
        let before = match formed(&case.tables) {
            Some(before) => before,
            None => return,
        };
        let allowed = (EARLIEST_YEAR..=LATEST_YEAR).contains(&before.year);
        self.dated += u64::from(sound && before.year != USUAL_YEAR);
        self.misdated += u64::from(!allowed);
        let front: [u8; ANSWER] = match outcome.answer.get(..ANSWER) {
            Some(front) if sound => front.try_into().unwrap_or([0; ANSWER]),
            _ => return,
        };
        let Reply { number, values } = Reply::of_bytes(&front);
        let value = match parse(&case.line) {
            Some(Request::Exec11) if number == 0 => Value::Time(values),
            _ => Value::Number(values[0]),
        };
        let made = usize::from(case.kind == Kind::Unreached);
        let date = (before.year, before.clock);
        self.turns[made].add(date, &case.line, Answer { number, value });
    }

    /// How often this came of start years and times.
    pub fn turns(&self, row: &str) -> u64 {
        self.turns.iter().map(|count| count.of(row)).sum()
    }

    /// Sound tables with another year than 1975, and tables with a year that FRESH does not take.
    pub fn years(&self) -> (u64, u64) {
        (self.dated, self.misdated)
    }

    /// How often this came of `TICK,n`.
    pub fn leaps(&self, row: &str) -> u64 {
        self.leaps.iter().map(|count| count.of(row)).sum()
    }

    /// Sound tables with a mark, tables with one where none may stand, and how often a mark was set,
    /// was gone by an ending, and led to chain 6.
    pub fn marks(&self) -> (u64, u64, [u64; 3]) {
        (self.marked, self.mismarked, self.marks)
    }

    pub fn sum(&self) -> u64 {
        self.kinds.values().map(|(all, _)| all).sum()
    }

    pub fn print(&self) -> String {
        let mut text = format!("{:28}{:>10}{:>10}\n", "tables", "all", "sound");
        for (kind, (all, sound)) in &self.kinds {
            text += &format!("{:28}{:>10}{:>10}\n", kind.what(), all, sound);
        }
        text += &format!("{:28}{:>10}\n", "not in packed form", self.no_form);
        text += &format!("{:28}{:>10}{:>10}\n", "with a mark", "", self.marked);
        text += &format!("{:28}{:>10}\n", "a mark where none may stand", self.mismarked);
        text += &format!("{:28}{:>10}{:>10}\n", "with a year but 1975", "", self.dated);
        text += &format!("{:28}{:>10}\n", "a year that is out of range", self.misdated);
        text += &format!("{:28}{:>10}\n", "too few bytes for the answer", self.short);
        text += &format!("{:28}{:>10}\n", "more bytes than it needs", self.longer);
        text +=
            &format!("\n{:28}{:>10}{:>10}\n", "request, on sound tables", "accepted", "refused");
        for (name, (accepted, refused)) in &self.requests {
            text += &format!("{:28}{:>10}{:>10}\n", name, accepted, refused);
        }
        text += &format!("\n{:28}{:>10}\n", "mark", "times");
        for (what, times) in ["set", "gone by an ending", "to chain 6"].iter().zip(self.marks) {
            text += &format!("{:28}{:>10}\n", what, times);
        }
        let columns = ["others", "reached by none"];
        text += &format!("\n{}", self.leaps[0].print(columns, &self.leaps[1]));
        text += &format!("\n{}", self.turns[0].print(columns, &self.turns[1]));
        text += &format!("\n{:28}{:>10}\n", "answer", "times");
        for (number, times) in self.answers.iter().enumerate() {
            text += &format!("{:<28}{:>10}\n", number, times);
        }
        text
    }
}

/// Compares so many cases. The report of the first that differs, if any does.
pub fn agree(seed: u64, count: u64, total: &mut Count) -> Result<(), String> {
    compare(Cases::new(seed), seed, count, total)
}

/// The same with ticks alone. Few of them have to come to what as many single ones do, which the
/// library makes too.
pub fn agree_ticks(seed: u64, count: u64, total: &mut Count) -> Result<(), String> {
    compare(Cases::of_ticks(seed), seed, count, total)
}

/// Of single ticks no more are made.
const SINGLE_TICKS: u64 = 60;

/// What single ticks come to, where a line that is accepted makes no more than these: the tables
/// after them, and the sum of their values.
fn single_ticks(case: &Case, sound: bool, number: u64) -> Option<(Vec<u8>, u64)> {
    let n = match parse(&case.line) {
        Some(Request::Ticks(n)) if sound && number == 0 && n <= SINGLE_TICKS => n,
        _ => return None,
    };
    let mut tables = case.tables.clone();
    let sum = (0..n).map(|_| ffi::ask(&mut tables, b"TICK", &mut []).values[0]).sum();
    Some((tables, sum))
}

fn compare(mut cases: Cases, seed: u64, count: u64, total: &mut Count) -> Result<(), String> {
    for place in 0..count {
        let case = cases.next_case();
        let (sound, expected) = engine_side(&case);
        let got = library_side(&case);
        if got != Ok((sound, expected.clone())) {
            let title = format!(
                "difference on case {} of seed {}, {}:\n",
                place + 1,
                seed,
                case.kind.what()
            );
            return Err(title + &report(&case, sound, &expected, &got));
        }
        if let Some((tables, sum)) = single_ticks(&case, sound, expected.number) {
            let reply = Reply::new(0, sum);
            let answer = answered(&reply, &case.answer);
            if (&tables, &answer) != (&expected.tables, &expected.answer) {
                let single = Outcome { tables, answer, ..expected.clone() };
                let title =
                    format!("single ticks differ on case {} of seed {}:\n", place + 1, seed);
                return Err(title + &report(&case, sound, &expected, &Ok((sound, single))));
            }
        }
        total.add(&case, sound, &expected);
    }
    Ok(())
}

fn block(text: &mut String, title: &str, list: &[String]) {
    *text += &format!("{}:\n", title);
    for line in list {
        *text += &format!("    {}\n", line);
    }
}

fn side(text: &mut String, name: &str, case: &Case, (sound, outcome): (bool, &Outcome)) {
    let list = [
        if sound { "sound" } else { "not sound" }.to_string(),
        format!("number {}", outcome.number),
        show::answer(&outcome.answer),
    ];
    block(text, &format!("{} says", name), &list);
    block(text, "  tables after it", &show::changes(&case.tables, &outcome.tables));
}

fn report(
    case: &Case,
    sound: bool,
    expected: &Outcome,
    got: &Result<(bool, Outcome), String>,
) -> String {
    let mut text = String::new();
    block(&mut text, "tables", &show::tables(&case.tables));
    block(&mut text, "line", &[shown(&case.line)]);
    block(&mut text, "lent buffer", &[format!("{} bytes", case.page.len())]);
    side(&mut text, "the engine", case, (sound, expected));
    block(&mut text, "  the lent buffer, from before", &show::buffer(&case.page, &expected.page));
    match got {
        Ok((sound, outcome)) => {
            side(&mut text, "the library", case, (*sound, outcome));
            let buffer = show::buffer(&expected.page, &outcome.page);
            block(&mut text, "  the lent buffer, from the engine's", &buffer);
        }
        Err(message) => block(&mut text, "the library", std::slice::from_ref(message)),
    }
    text
}

/// Every pair of a length of tables and one of the answer, right and wrong.
pub fn lengths() -> Result<(), String> {
    let tables = [pack(&make::unreached(&mut Prng::new(1))).to_vec(), vec![0; TABLES]].concat();
    for size in [0, 1, 14, WITHOUT_MARKS, WITHOUT_YEAR, TABLES - 1, TABLES, TABLES + 1, 2 * TABLES]
    {
        for answer_size in [0, 8, ANSWER - 1, ANSWER, ANSWER + 1, 2 * ANSWER] {
            let case = Case {
                kind: Kind::Resized,
                tables: tables[..size].to_vec(),
                line: b"FRESH,1,1,1".to_vec(),
                page: vec![FILL; 4],
                answer: vec![FILL; answer_size],
            };
            let (sound, expected) = engine_side(&case);
            let got = library_side(&case);
            if got != Ok((sound, expected.clone())) {
                let title = format!("{} bytes of tables, {} of answer:\n", size, answer_size);
                return Err(title + &report(&case, sound, &expected, &got));
            }
        }
    }
    Ok(())
}
