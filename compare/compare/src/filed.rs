//! A `desk` program held against the engine, on pairs of texts in files: it is given the names of
//! two files, and perhaps a key with its occurrence, and what it prints is compared.

use crate::asks::{finds, Ask};
use crate::looking::{shortest, texts_shown};
use crate::other;
use crate::prng::Prng;
use crate::report::{outputs, shown};
use crate::texts::{turn, Pair, Pairs};
use engine::Desk;
use faults::Print;
use std::ffi::{OsStr, OsString};
use std::fs;
use std::os::unix::ffi::OsStrExt;
use std::path::{Path, PathBuf};
use std::time::Duration;

/// The pairs that `compare desk` takes unless it is told another count: some turns of kinds.
pub const CI_FILED: usize = 120;

/// How many lines are asked for in each pair.
const FINDS: usize = 3;

pub enum Program {
    /// An engine in this process.
    Engine(Print),
    Command {
        /// The program and its first arguments; not empty.
        command: Vec<String>,
        /// How long one run may take.
        limit: Duration,
        folder: Folder,
    },
}

/// A folder for the files of a run, removed with what is in it at the end.
pub struct Folder(PathBuf);

impl Folder {
    /// For the runs of this program.
    pub fn new(program: &str) -> Result<Folder, String> {
        let name = format!("compare-{}-{}", program, std::process::id());
        let path = std::env::temp_dir().join(name);
        fs::create_dir_all(&path).map_err(|error| format!("{}: {}", path.display(), error))?;
        Ok(Folder(path))
    }

    pub fn path(&self) -> &Path {
        &self.0
    }

    fn put(&self, name: &str, text: &[u8]) -> Result<OsString, String> {
        let path = self.0.join(name);
        fs::write(&path, text).map_err(|error| format!("{}: {}", path.display(), error))?;
        Ok(path.into_os_string())
    }
}

impl Drop for Folder {
    fn drop(&mut self) {
        // What cannot be removed is left to whoever looks after the folder for such files.
        let _ = fs::remove_dir_all(&self.0);
    }
}

/// A key and its occurrence.
pub type Wanted = (Vec<u8>, u64);

impl Program {
    /// What it prints of this pair. An error is that of starting the program.
    pub fn print(&self, pair: &Pair, wanted: Option<&Wanted>) -> Result<Vec<u8>, String> {
        match self {
            Program::Engine(print) => Ok(print(&pair.original, &pair.copy, lent(wanted))),
            Program::Command { command, limit, folder } => {
                let mut words: Vec<OsString> = command.iter().map(OsString::from).collect();
                words.push(folder.put("original", &pair.original)?);
                words.push(folder.put("copy", &pair.copy)?);
                if let Some((key, occurrence)) = wanted {
                    words.push(OsStr::from_bytes(key).to_os_string());
                    words.push(occurrence.to_string().into());
                }
                other::run(&words, *limit, b"")
            }
        }
    }

    fn differs(&self, pair: &Pair, wanted: Option<&Wanted>) -> Result<bool, String> {
        Ok(self.print(pair, wanted)? != right(pair, wanted))
    }
}

fn lent(wanted: Option<&Wanted>) -> Option<(&[u8], u64)> {
    wanted.map(|(key, occurrence)| (key.as_slice(), *occurrence))
}

fn right(pair: &Pair, wanted: Option<&Wanted>) -> Vec<u8> {
    Desk::new(&pair.original, &pair.copy).print(lent(wanted))
}

/// A pair on which the program prints something else, and what was wanted.
pub struct Difference {
    pub what: String,
    pub pair: Pair,
    pub wanted: Option<Wanted>,
}

#[derive(Default)]
pub struct Count {
    pub pairs: u64,
    pub runs: u64,
}

/// So many pairs of this seed, one turn of kinds after another, and then the fixed ones.
pub fn run(
    program: &Program,
    seed: u64,
    count: usize,
    total: &mut Count,
) -> Result<Option<Difference>, String> {
    let mut pairs = Pairs::new(seed);
    let mut all = Vec::new();
    for (place, kind) in turn().into_iter().cycle().take(count).enumerate() {
        let (relation, pair) = pairs.pair(kind);
        let kinds = format!("{}, {}", kind.what(), relation.what());
        all.push((format!("pair {} of seed {} ({})", place + 1, seed, kinds), pair));
    }
    all.extend(fixed());
    for (what, pair) in all {
        for wanted in all_wanted(pairs.prng(), &pair) {
            if program.differs(&pair, wanted.as_ref())? {
                return Ok(Some(Difference { what, pair, wanted }));
            }
            total.runs += 1;
        }
        total.pairs += 1;
    }
    Ok(None)
}

/// Sizes of files, beside those of the blocks in which a program may read them.
const SIZES: [usize; 10] = [0, 1, 4_095, 4_096, 4_097, 8_192, 65_535, 65_536, 65_537, 200_000];

/// Lines without `=` that are the keys of others, and keys that are the same up to byte 0, in another
/// order: nothing is to be listed.
const LOOKALIKES: [&[u8]; 2] =
    [b"a\nb\na=1\nb=1\na\0b=1\na\0c=2\n", b"a=1\nb\na\0c=2\nb=1\na\0b=1\n"];

/// A text of each of these sizes with nothing in the copy, and with the copy's last byte another;
/// every byte as a key; very long lines that differ in the key's last byte, or in their own; and
/// `LOOKALIKES`.
pub fn fixed() -> Vec<(String, Pair)> {
    let mut pairs = Vec::new();
    for size in SIZES {
        let lines =
            (0..).flat_map(|line: u64| format!("line{}={}\n", line % 1_000, line).into_bytes());
        let original: Vec<u8> = lines.take(size).collect();
        let mut copy = original.clone();
        if let Some(last) = copy.last_mut() {
            *last = b'z';
        }
        pairs.push((format!("{} bytes, nothing in the copy", size), original.clone(), Vec::new()));
        pairs.push((format!("{} bytes, the last another", size), original, copy));
    }
    let keys: Vec<u8> = (0..=255).flat_map(|byte| [byte, b'=', b'1', b'\n']).collect();
    let other = keys.iter().map(|byte| if *byte == b'1' { b'2' } else { *byte }).collect();
    pairs.push((String::from("every byte as a key"), keys, other));
    let long = "v".repeat(100_000);
    for [one, two] in [["1=x", "2=x"], ["=1", "=2"]] {
        let [original, copy] = [one, two].map(|end| (long.clone() + end).into_bytes());
        pairs.push((String::from("a line of 100,000 bytes"), original, copy));
    }
    let [original, copy] = LOOKALIKES.map(|text| text.to_vec());
    pairs.push((
        String::from("lines that look like keys, and keys that look alike"),
        original,
        copy,
    ));
    let pair = |(what, original, copy)| (what, Pair { original, copy });
    pairs.into_iter().map(pair).collect()
}

/// What the program takes: arguments of so many bytes at most, and numbers of 19 digits.
const MOST_IN_ARGUMENT: usize = 4_095;
const MOST_OCCURRENCE: u64 = 9_999_999_999_999_999_999;

/// The list, and some lines. No argument can hold byte 0.
fn all_wanted(prng: &mut Prng, pair: &Pair) -> Vec<Option<Wanted>> {
    let mut all = vec![None];
    for ask in finds(prng, pair, FINDS) {
        if let Ask::Find { mut key, occurrence } = ask {
            key.retain(|byte| *byte != 0);
            key.truncate(MOST_IN_ARGUMENT);
            all.push(Some((key, occurrence.min(MOST_OCCURRENCE))));
        }
    }
    all
}

/// The same with a pair that is made short.
pub fn shortened(program: &Program, difference: Difference) -> Result<Difference, String> {
    let Difference { what, pair, wanted } = difference;
    let pair = shortest(&pair, |shorter| program.differs(shorter, wanted.as_ref()))?;
    Ok(Difference { what, pair, wanted })
}

pub fn report(program: &Program, difference: &Difference) -> Result<String, String> {
    let Difference { what, pair, wanted } = difference;
    let mut text = format!("difference on {}; the shortest found:\n", what);
    text += &texts_shown(pair);
    text += &match wanted {
        Some((key, occurrence)) => format!("wanted: \"{}\" {}\n", shown(key), occurrence),
        None => String::from("wanted: the list\n"),
    };
    Ok(text + &outputs(&right(pair, wanted.as_ref()), &program.print(pair, wanted.as_ref())?))
}
