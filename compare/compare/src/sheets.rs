//! Runs of sheets from a seed, for a `follow` program: a page, requests, the next page, and so on.
//! Of the steps, half follow; in the others one thing is another, or something is no page, or
//! cannot be read.

use crate::pages::{self, Pages};
use crate::prng::Prng;
use crate::script::going_on;
use crate::slip::slip;
use crate::years::{allowed, fresh, refused};
use engine::sheet::print_line;
use engine::{read, Engine};
use faults::Given;

/// What an argument of the program names.
#[derive(Clone, Debug, PartialEq, Eq)]
pub enum Content {
    Text(Vec<u8>),
    Missing,
    Directory,
    /// A file with this text that nobody may read.
    Forbidden(Vec<u8>),
    /// The name goes on below that of a file.
    BelowFile,
    /// A part of the name is longer than that of a file can be.
    LongName,
}

/// What Linux calls these.
const NO_SUCH_FILE: i32 = 2;
const NO_PERMISSION: i32 = 13;
const NO_DIRECTORY: i32 = 20;
const A_DIRECTORY: i32 = 21;
const NAME_TOO_LONG: i32 = 36;

/// One argument of the program, and what it names.
#[derive(Clone, Debug, PartialEq, Eq)]
pub struct Sheet {
    /// Within the folder of the run.
    pub name: Vec<u8>,
    pub content: Content,
}

impl Sheet {
    pub fn text(name: &str, text: &[u8]) -> Sheet {
        Sheet { name: name.as_bytes().to_vec(), content: Content::Text(text.to_vec()) }
    }

    /// A sheet of this content under a name that suits it.
    pub fn new(name: &str, content: Content) -> Sheet {
        let name = match content {
            Content::BelowFile => format!("{}/below", name),
            Content::LongName => name.repeat(300),
            _ => name.to_string(),
        };
        Sheet { name: name.into_bytes(), content }
    }

    /// As an engine is given it that reads no file.
    pub fn given(&self) -> Given<'_> {
        let failed = |error: i32| (&self.name[..], &b""[..], Some(error));
        match &self.content {
            Content::Text(text) => (&self.name, text, None),
            Content::Missing => failed(NO_SUCH_FILE),
            Content::Directory => failed(A_DIRECTORY),
            Content::Forbidden(_) => failed(NO_PERMISSION),
            Content::BelowFile => failed(NO_DIRECTORY),
            Content::LongName => failed(NAME_TOO_LONG),
        }
    }
}

/// The arguments of one run of the program.
#[derive(Clone, Debug, PartialEq, Eq)]
pub struct Run {
    pub what: String,
    pub sheets: Vec<Sheet>,
}

impl Run {
    pub fn given(&self) -> Vec<Given<'_>> {
        self.sheets.iter().map(Sheet::given).collect()
    }

    /// How many times there is a page, requests and the next page.
    pub fn triples(&self) -> u64 {
        match self.sheets.len() {
            count if count % 2 == 1 => count as u64 / 2,
            // A usage line is all there is.
            _ => 0,
        }
    }
}

/// Runs without end; the same ones for the same seed.
pub struct Runs {
    prng: Prng,
    pages: Pages,
    /// How many there were.
    count: u64,
}

impl Runs {
    pub fn new(seed: u64) -> Runs {
        let mut prng = Prng::new(seed);
        let pages = Pages::new(prng.number());
        Runs { prng, pages, count: 0 }
    }

    /// Sound tables, mostly such as a script reaches, often with few or no programs left to load.
    fn start(&mut self) -> Engine {
        let kind = match self.prng.below(10) {
            0 | 1 => return crowded(&mut self.prng),
            2..=4 => pages::Kind::Unreached,
            _ => pages::Kind::Reached,
        };
        self.pages.sound(kind).engine().expect("sound tables")
    }

    fn run(&mut self) -> Run {
        let steps = self.prng.pick(&[0, 1, 1, 1, 2, 2, 3, 4, 6]);
        // The tables as the station had them, and as the sheet gives them, if it is a page.
        let mut meant = self.start();
        let (page, mut given) = self.page(&meant);
        let mut sheets = vec![Sheet::new("1.page", page)];
        for step in 1..=steps {
            let mut from = match given {
                Some(given) if self.prng.chance(2, 3) => given,
                // A figure of the step's first page is another, if that was changed.
                _ => meant,
            };
            let requests = self.requests(&mut from);
            sheets.push(Sheet::new(&format!("{}.requests", step), requests));
            meant = from;
            let (page, next) = self.page(&meant);
            sheets.push(Sheet::new(&format!("{}.page", step + 1), page));
            given = next;
        }
        self.count += 1;
        Run { what: format!("run {}, of {} steps", self.count, steps), sheets }
    }

    /// The page of these tables, or nearly, and the tables that it gives, if it is a page.
    fn page(&mut self, meant: &Engine) -> (Content, Option<Engine>) {
        let prng = &mut self.prng;
        match prng.below(100) {
            0..=33 => {
                if let Some((page, engine)) = slip(prng, meant) {
                    return (Content::Text(page), Some(engine));
                }
            }
            34..=39 => {
                let page = no_page(prng, meant.page_bytes());
                let (raw, answer) = read(&page);
                let given = raw.engine().filter(|_| answer.number == 0);
                return (Content::Text(page), given);
            }
            40..=41 => return (unreadable(prng), None),
            _ => {}
        }
        (Content::Text(meant.page_bytes()), Some(meant.clone()))
    }

    /// Lines that go on from these tables, and the tables after them; now and then the file has
    /// another figure in one of them.
    fn requests(&mut self, tables: &mut Engine) -> Content {
        let prng = &mut self.prng;
        let count = prng.pick(&[0, 1, 1, 1, 2, 3, 5, 8, 20, 60]);
        let before = tables.clone();
        let mut lines = Vec::new();
        while lines.len() < count {
            if prng.chance(1, 6) {
                let line = odd_line(prng);
                print_line(tables, &line);
                lines.push(line);
            } else {
                let some = prng.between(1, 4) as usize;
                lines.extend(going_on(prng, tables, some));
            }
        }
        if prng.chance(1, 40) {
            return unreadable(prng);
        }
        if prng.chance(1, 7) {
            miskey(prng, &before, tables, &mut lines);
        }
        let mut text: Vec<u8> =
            lines.iter().flat_map(|line| line.iter().chain(b"\n")).copied().collect();
        // An empty last line would vanish with its byte 10.
        if prng.chance(1, 3) && !text.ends_with(b"\n\n") && text != b"\n" {
            text.pop();
        }
        Content::Text(text)
    }
}

impl Iterator for Runs {
    type Item = Run;

    fn next(&mut self) -> Option<Run> {
        Some(self.run())
    }
}

/// Many programs, many runs of tracks and many numbers, reached by a script.
fn crowded(prng: &mut Prng) -> Engine {
    let mut engine = Engine::smallest();
    let year = if prng.chance(1, 2) { format!(",{}", allowed(prng)) } else { String::new() };
    let mut script = vec![format!("FRESH,256,0,16{}", year)];
    let programs = prng.pick(&[20, 31, 32, 32, 32]);
    script.extend((1..=programs).map(|k| format!("LOAD,P{},{}", k, prng.pick(&[1, 10, 300]))));
    script.extend((1..=programs / 2).map(|k| format!("RU,P{}", k)));
    for _ in 0..prng.pick(&[8, 60, 256]) {
        script.push(format!("EXEC,{},1,1", prng.pick(&[4, 15])));
    }
    for k in 1..=programs {
        script.push(format!("EXEC,12,P{},{},{},{}", k, prng.between(1, 4), k % 3, k));
        script.push(format!("RN,ALLOC,{},1", prng.pick(&["L", "G"])));
    }
    for line in &script {
        print_line(&mut engine, line.as_bytes());
    }
    let more = prng.below(40) as usize;
    going_on(prng, &mut engine, more);
    engine
}

/// What is no page, or hardly ever: one that something has happened to, noise, nothing.
fn no_page(prng: &mut Prng, mut page: Vec<u8>) -> Vec<u8> {
    match prng.below(12) {
        0 => Vec::new(),
        1 | 2 => {
            page.pop();
            page
        }
        3 => (0..prng.below(300)).map(|_| prng.below(256) as u8).collect(),
        4 => {
            let size = prng.pick(&[65_535, 65_536, 65_537, 100_000]);
            page.resize(size, prng.pick(b"\n=0x\0\xff"));
            page
        }
        _ => {
            let kind = prng.pick(&GONE_WRONG);
            pages::changed(prng, kind, page)
        }
    }
}

const GONE_WRONG: [pages::Kind; 15] = [
    pages::Kind::Twisted,
    pages::Kind::Twisted,
    pages::Kind::Twisted,
    pages::Kind::Twisted,
    pages::Kind::Cut,
    pages::Kind::Cut,
    pages::Kind::Line,
    pages::Kind::Byte,
    pages::Kind::Digits,
    pages::Kind::Tail,
    pages::Kind::Ends,
    pages::Kind::Misspelt,
    pages::Kind::Misshapen,
    pages::Kind::Miscounted,
    pages::Kind::Year,
];

fn unreadable(prng: &mut Prng) -> Content {
    let hidden = Engine::smallest().page_bytes();
    prng.pick(&[
        Content::Missing,
        Content::Missing,
        Content::Directory,
        Content::Forbidden(hidden),
        Content::BelowFile,
        Content::LongName,
    ])
}

/// Lines that a script seldom has, and that show something of how lines are shown.
fn odd_line(prng: &mut Prng) -> Vec<u8> {
    let byte = prng.pick(&[0, 9, 13, 31, 32, 126, 127, 128, 160, 255]);
    let front: &[u8] = prng.pick(&[b"", b"TICK", b"PAGE", b"EXEC,11", b"LOAD,LONG,10", b"RU,A"]);
    match prng.below(12) {
        0 | 1 => b"PAGE".to_vec(),
        10 => refused(prng).into_bytes(),
        11 => prng.pick(&[fresh, refused])(prng).into_bytes(),
        2 | 3 => b"EXEC,11".to_vec(),
        4 => Vec::new(),
        5 => [front, &[byte]].concat(),
        6 => [&[byte], front].concat(),
        7 => {
            prng.pick(&["RU,NONE", "LOAD,P1,10", "LOAD,NEW,10", "LOAD,NEW,10"]).as_bytes().to_vec()
        }
        _ => {
            let size = prng.pick(&[70, 71, 72, 72, 73, 73, 74, 75, 80, 144, 145, 146, 5_000]);
            let mut line = front.to_vec();
            line.resize(size, prng.pick(&[b' ', b'x', b'0', b',', byte]));
            line
        }
    }
}

/// One figure of one request is another, so that the tables then are others than these, if there is
/// such a figure.
fn miskey(prng: &mut Prng, before: &Engine, after: &Engine, lines: &mut Vec<Vec<u8>>) {
    let figure = |byte: &u8| byte.is_ascii_digit();
    let with: Vec<usize> = (0..lines.len()).filter(|k| lines[*k].iter().any(figure)).collect();
    if with.is_empty() {
        return;
    }
    let mut changed = lines.clone();
    for _ in 0..20 {
        changed = lines.clone();
        let line = &mut changed[prng.pick(&with)];
        let places: Vec<usize> = (0..line.len()).filter(|k| figure(&line[*k])).collect();
        let place = prng.pick(&places);
        line[place] = match line[place] {
            b'1' if prng.chance(1, 2) => b'7',
            b'7' if prng.chance(1, 2) => b'1',
            _ => b'0' + prng.below(10) as u8,
        };
        let mut tables = before.clone();
        changed.iter().for_each(|line| drop(print_line(&mut tables, line)));
        if tables.page_bytes() != after.page_bytes() {
            break;
        }
    }
    *lines = changed;
}
