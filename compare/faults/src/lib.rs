//! Engines that are wrong on purpose. A comparison that cannot tell each of them from the right
//! engine tests too little. Each is written down in `list/`, as changes of the right engine's text
//! (the form: `edit/src/list.rs`), and made from them by `build.rs`.

mod choice;

/// Where a wrong engine shows: each kind has its list.
#[derive(Clone, Copy, Debug, PartialEq, Eq)]
pub enum Shown {
    /// Or on tables put by hand.
    OnConsole,
    /// Its reader of pages is wrong.
    OnPages,
    /// Its reading desk is wrong.
    OnTexts,
    /// Its desk is right, but not what the program prints of it.
    OnPaper,
    /// Its `follow` is wrong.
    OnSheets,
}

/// A wrong engine.
#[derive(Clone, Copy)]
pub struct Fault {
    /// As on the command line.
    pub name: &'static str,
    /// What it does wrong.
    pub what: &'static str,
    /// Its number in `together`; 0 if it is built by itself.
    choice: usize,
    pub shown: Shown,
    /// Console lines in, what its `sheet` prints out.
    pub sheet: fn(&[u8]) -> Vec<u8>,
    /// What it reads from a page, in print: the answer, and the tables.
    pub read: fn(&[u8]) -> (String, String),
    pub desk: InPrint,
    pub follow: Follow,
}

/// The calls of an engine's reading desk on two texts, the original's and the copy's; what they say
/// is in print.
#[derive(Clone, Copy)]
pub struct InPrint {
    /// A key and its occurrence in, what was found out.
    pub find: fn(&[u8], &[u8], &[u8], u64) -> String,
    /// The answer; the list that is lent may be filled.
    pub list: fn(&[u8], &[u8], &mut [u64]) -> String,
    /// What its program `desk` prints.
    pub print: Print,
}

/// Two texts, and perhaps a key with its occurrence, in; what `desk` prints out.
pub type Print = fn(&[u8], &[u8], Option<(&[u8], u64)>) -> Vec<u8>;

/// A file as an engine's `follow` is given it: its name, what was read of it, and the number of the
/// error by which the rest was not.
pub type Given<'a> = (&'a [u8], &'a [u8], Option<i32>);

/// What an engine's `follow` says.
#[derive(Clone, Copy)]
pub struct Follow {
    /// The files of its arguments in, what it prints out.
    pub print: fn(&[Given]) -> Vec<u8>,
    /// A sheet and the page that was written, or any two texts, in; the lines that it shows out.
    pub differences: fn(&[u8], &[u8]) -> Vec<u8>,
}

/// A reading by one of the engines, whose types are all different.
macro_rules! told {
    ($engine:ident, $page:expr) => {{
        let (tables, answer) = $engine::read($page);
        (format!("{:?}", answer), format!("{:?}", tables))
    }};
}

/// The desk of one of the engines, with this one chosen of those that are built together.
macro_rules! desk {
    ($engine:ident, $choice:expr) => {
        InPrint {
            find: |original, copy, key, occurrence| {
                let find = || $engine::desk::find(original, copy, key, occurrence);
                format!("{:?}", choice::with($choice, find))
            },
            list: |original, copy, list| {
                let list = || $engine::desk::list(original, copy, list);
                format!("{:?}", choice::with($choice, list))
            },
            print: |original, copy, asked| {
                choice::with($choice, || $engine::Desk::new(original, copy).print(asked))
            },
        }
    };
}

/// The `follow` of one of the engines, in the same way.
macro_rules! follow {
    ($engine:ident, $choice:expr) => {
        Follow {
            print: |files| {
                let file = |&(name, bytes, failed)| $engine::File { name, bytes, failed };
                let files: Vec<_> = files.iter().map(file).collect();
                choice::with($choice, || $engine::follow(&files))
            },
            differences: |sheet, written| {
                choice::with($choice, || $engine::follow::differences(sheet, written))
            },
        }
    };
}

include!(concat!(env!("OUT_DIR"), "/engines.rs"));

/// Told apart on tables put by hand alone, in `tests/hand.rs`. Numbers of a line have ten digits;
/// and tables that a run from FRESH left are sound, with nobody waiting for a number that is clear.
pub const ON_TABLES: [&str; 7] = [
    "sum-in-64-bits",
    "clear-already-wakes",
    "unlocked-wakes-none",
    "cycle-sound",
    "cycle-followed",
    "crossed-sound",
    "mark-sound-unused",
];

/// What the engine of all that are built together reads, with nothing chosen.
pub fn together_reads(page: &[u8]) -> (String, String) {
    told!(together, page)
}

/// The desk of the engine of all that are built together, with nothing chosen.
pub const TOGETHER_DESK: InPrint = desk!(together, 0);

/// The `follow` of the same.
pub const TOGETHER_FOLLOW: Follow = follow!(together, 0);

impl Fault {
    pub fn by_name(name: &str) -> Option<Fault> {
        FAULTS.iter().copied().find(|fault| fault.name == name)
    }

    /// Runs what is given with `together` as this engine; elsewhere `together` is the right one.
    pub fn run<T>(&self, call: impl FnOnce() -> T) -> T {
        assert!(self.choice > 0, "{} is built by itself", self.name);
        choice::with(self.choice, call)
    }
}
