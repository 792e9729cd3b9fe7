//! A `follow` program held against the engine, on runs of sheets in files: it is given the names of
//! a page, of requests, of the next page and so on, and what it prints is compared.

use crate::filed::Folder;
use crate::nooks::fixed;
use crate::other;
use crate::reading::page_lines;
use crate::report::{front, outputs_near};
use crate::sheets::{Content, Run, Runs, Sheet};
use crate::shrink::shrink;
use crate::verdicts::Count;
use engine::follow::NOT_UTF8;
use engine::tables::{shown_name, FREE_NUMBER, RECORDS, USUAL_YEAR};
use engine::{Engine, File, Holder};
use faults::{Follow, Given};
use std::ffi::{OsStr, OsString};
use std::fs::{self, Permissions};
use std::io::{self, ErrorKind, Read};
use std::os::unix::ffi::OsStrExt;
use std::os::unix::fs::PermissionsExt;
use std::panic::{catch_unwind, AssertUnwindSafe};
use std::path::{Path, PathBuf};
use std::time::Duration;

/// The triples that `compare follow` takes unless it is told another count. Within them and the
/// fixed runs every wrong `follow` is found.
pub const CI_TRIPLES: usize = 60;

/// What the engine's says.
pub const ENGINE: Follow =
    Follow { print: engine_prints, differences: engine::follow::differences };

fn engine_prints(files: &[Given]) -> Vec<u8> {
    let file = |&(name, bytes, failed)| File { name, bytes, failed };
    engine::follow(&files.iter().map(file).collect::<Vec<_>>())
}

/// What reading a file gives, and the number of the error by which it was not read to its end.
pub fn fetch(path: &OsStr) -> (Vec<u8>, Option<i32>) {
    let mut text = Vec::new();
    let failed = |error: io::Error| Some(error.raw_os_error().unwrap_or(0));
    let mut file = match fs::File::open(path) {
        Ok(file) => file,
        Err(error) => return (text, failed(error)),
    };
    let mut block = [0; 65_536];
    loop {
        match file.read(&mut block) {
            Ok(0) => return (text, None),
            Ok(size) => text.extend_from_slice(&block[..size]),
            Err(error) if error.kind() == ErrorKind::Interrupted => {}
            Err(error) => return (text, failed(error)),
        }
    }
}

/// The same of a program that opens no file whose name is not in UTF-8: Rattle's library opens none.
fn fetch_by_text(path: &OsStr) -> (Vec<u8>, Option<i32>) {
    match path.to_str() {
        Some(_) => fetch(path),
        None => (Vec::new(), Some(NOT_UTF8)),
    }
}

/// The engine as a `follow` program.
pub fn after(arguments: &[OsString]) -> Vec<u8> {
    prints_of(arguments, fetch)
}

fn prints_of(arguments: &[OsString], fetch: fn(&OsStr) -> (Vec<u8>, Option<i32>)) -> Vec<u8> {
    let read: Vec<_> = arguments.iter().map(|name| (name.as_bytes(), fetch(name))).collect();
    let given: Vec<Given> =
        read.iter().map(|(name, (text, failed))| (*name, &text[..], *failed)).collect();
    engine_prints(&given)
}

pub enum Program {
    /// An engine in this process.
    Engine(Follow),
    Command {
        /// The program and its first arguments; not empty.
        command: Vec<String>,
        /// How long one run may take.
        limit: Duration,
        folder: Folder,
    },
}

/// What is right, and what the program prints.
pub struct Prints {
    pub right: Vec<u8>,
    pub got: Vec<u8>,
}

impl Program {
    /// An error is that of starting the program, or of putting its files.
    pub fn prints(&self, run: &Run) -> Result<Prints, String> {
        match self {
            Program::Engine(follow) => {
                Ok(Prints { right: engine_prints(&run.given()), got: tried(*follow, run) })
            }
            Program::Command { command, limit, folder } => {
                let arguments = put(folder.path(), run)?;
                // From the files themselves: who may read everything reads what nobody may.
                let mut right = after(&arguments);
                let by_text = prints_of(&arguments, fetch_by_text);
                let words = command.iter().map(OsString::from).chain(arguments);
                let got = other::run(&words.collect::<Vec<_>>(), *limit, b"")?;
                if got == by_text {
                    right = by_text;
                }
                Ok(Prints { right, got })
            }
        }
    }

    fn differs(&self, run: &Run) -> Result<bool, String> {
        let Prints { right, got } = self.prints(run)?;
        Ok(right != got)
    }
}

/// What an engine's `follow` prints, or that it prints nothing.
pub fn tried(follow: Follow, run: &Run) -> Vec<u8> {
    let stopped = b"(it stops without an answer)\n".to_vec();
    let print = || (follow.print)(&run.given());
    catch_unwind(AssertUnwindSafe(print)).unwrap_or(stopped)
}

/// The files of a run in a folder of their own, in the place of those of the run before it; and the
/// arguments that name them.
fn put(folder: &Path, run: &Run) -> Result<Vec<OsString>, String> {
    let folder = folder.join("run");
    let told = |error: io::Error| format!("{}: {}", folder.display(), error);
    if folder.exists() {
        fs::remove_dir_all(&folder).map_err(told)?;
    }
    fs::create_dir_all(&folder).map_err(told)?;
    let mut arguments = Vec::new();
    for sheet in &run.sheets {
        let path = folder.join(OsStr::from_bytes(&sheet.name));
        put_sheet(&path, &sheet.content).map_err(told)?;
        arguments.push(path.into_os_string());
    }
    Ok(arguments)
}

fn put_sheet(path: &Path, content: &Content) -> io::Result<()> {
    match content {
        Content::Text(text) => fs::write(path, text),
        Content::Missing | Content::LongName => Ok(()),
        Content::Directory => fs::create_dir_all(path),
        Content::Forbidden(text) => {
            fs::write(path, text)?;
            fs::set_permissions(path, Permissions::from_mode(0o000))
        }
        Content::BelowFile => fs::write(path.parent().unwrap_or(path), b""),
    }
}

/// A run on which the program prints something else.
pub struct Difference {
    pub run: Run,
    /// Of which seed, if it is no fixed one.
    pub seed: Option<u64>,
}

/// So many triples of this seed, in runs with the seed, and then the fixed runs.
pub fn runs(seed: u64, count: usize) -> impl Iterator<Item = (Option<u64>, Run)> {
    let mut triples = 0;
    let enough = move |run: &Run| {
        let wanted = triples < count as u64;
        triples += run.triples();
        wanted
    };
    let made = Runs::new(seed).take_while(enough).map(move |run| (Some(seed), run));
    made.chain(fixed().into_iter().map(|run| (None, run)))
}

/// All of them, counted as far as they agree.
pub fn run(
    program: &Program,
    seed: u64,
    count: usize,
    total: &mut Count,
) -> Result<Option<Difference>, String> {
    for (seed, run) in runs(seed, count) {
        let Prints { right, got } = program.prints(&run)?;
        if right != got {
            return Ok(Some(Difference { run, seed }));
        }
        total.add(&run, &right);
    }
    Ok(None)
}

/// The same with as few steps as show it, with fewer requests in them, and with less on the pages,
/// which stay pages.
pub fn shortened(program: &Program, difference: Difference) -> Result<Difference, String> {
    let Difference { run, seed } = difference;
    let mut run = fewest_steps(program, run)?;
    for place in 0..run.sheets.len() {
        if let Some(text) = text_of(&run, place).filter(|_| page_of(&run, place).is_none()) {
            let shorter = shrink(text, |text| program.differs(&with(&run, place, text)))?;
            run = with(&run, place, &shorter);
        }
    }
    // First from all pages the same, then from each what it can go without.
    let all: Vec<usize> = (0..run.sheets.len()).collect();
    run = less(program, run, &all)?;
    for place in all {
        run = less(program, run, &[place])?;
    }
    Ok(Difference { run, seed })
}

fn text_of(run: &Run, place: usize) -> Option<&[u8]> {
    match &run.sheets[place].content {
        Content::Text(text) => Some(text),
        _ => None,
    }
}

/// The tables of the page at this place, if there is one.
fn page_of(run: &Run, place: usize) -> Option<Engine> {
    let text = text_of(run, place).filter(|_| place % 2 == 0)?;
    tables_of(text)
}

fn tables_of(page: &[u8]) -> Option<Engine> {
    let (raw, answer) = engine::read(page);
    raw.engine().filter(|_| answer.number == 0)
}

/// Without as many programs on these pages, without what is held and allocated there, and without a
/// year, as it can be and still differ.
fn less(program: &Program, mut run: Run, places: &[usize]) -> Result<Run, String> {
    for what in 0..=RECORDS + 2 {
        let mut smaller = run.clone();
        for place in places {
            let page = page_of(&run, *place).map(|tables| without(tables, what));
            if let Some(page) = page.filter(|page| tables_of(page).is_some()) {
                smaller = with(&smaller, *place, &page);
            }
        }
        if smaller != run && program.differs(&smaller)? {
            run = smaller;
        }
    }
    Ok(run)
}

/// The page without what is held (0), without what is allocated (33), without a year (34), or without
/// this program.
fn without(mut tables: Engine, what: usize) -> Vec<u8> {
    if what == 0 {
        tables.tracks[tables.system as usize..].fill(Holder::Free);
    } else if what > RECORDS + 1 {
        tables.year = USUAL_YEAR;
    } else if what > RECORDS {
        tables.numbers.fill(FREE_NUMBER);
    } else if let Some(program) = tables.programs.get(&what) {
        let line = format!("OF,{},8", shown_name(program.name));
        tables.line(line.as_bytes(), &mut []);
    }
    tables.page_bytes()
}

fn with(run: &Run, place: usize, text: &[u8]) -> Run {
    let mut run = run.clone();
    run.sheets[place].content = Content::Text(text.to_vec());
    run
}

/// Steps behind each other, the fewest that still differ: from each page to each behind it.
fn fewest_steps(program: &Program, run: Run) -> Result<Run, String> {
    for steps in 0..run.sheets.len() / 2 {
        let size = 2 * steps + 1;
        for first in (0..=run.sheets.len() - size).step_by(2) {
            let sheets = run.sheets[first..first + size].to_vec();
            let fewer = Run { what: run.what.clone(), sheets };
            if program.differs(&fewer)? {
                return Ok(fewer);
            }
        }
    }
    Ok(run)
}

/// So many lines before the first that differs are shown, and behind it.
const NEAR: usize = 12;

pub fn report(program: &Program, difference: &Difference) -> Result<String, String> {
    let Difference { run, seed } = difference;
    let origin = seed.map_or(String::from("fixed"), |seed| format!("seed {}", seed));
    let mut text = format!("difference on {} ({}); the shortest found:\n", run.what, origin);
    for Sheet { name, content } in &run.sheets {
        text += &format!("{}:\n", front(name));
        for line in content_lines(content) {
            text += &format!("    {}\n", line);
        }
    }
    let Prints { right, got } = program.prints(run)?;
    Ok(text + &outputs_near(&right, &got, NEAR))
}

fn content_lines(content: &Content) -> Vec<String> {
    let what = match content {
        Content::Text(text) => return page_lines(text),
        Content::Missing => "(no such file)",
        Content::Directory => "(a directory)",
        Content::Forbidden(_) => "(no permission)",
        Content::BelowFile => "(below a file)",
        Content::LongName => "(too long a name)",
    };
    vec![String::from(what)]
}

/// Puts the texts of the run into `FILE.1` and so on, by their place.
pub fn save(difference: &Difference, file: &str) -> Result<(), String> {
    for (place, sheet) in difference.run.sheets.iter().enumerate() {
        if let Content::Text(text) = &sheet.content {
            let path = PathBuf::from(format!("{}.{}", file, place + 1));
            fs::write(&path, text).map_err(|error| format!("{}: {}", path.display(), error))?;
        }
    }
    Ok(())
}
