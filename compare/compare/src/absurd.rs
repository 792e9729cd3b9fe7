//! Pages that no writer makes and every reader has to bear: far more records, members, runs or
//! numbers than there are places for, and some fixed ones.

use crate::blot::STRANGE;
use crate::prng::Prng;
use crate::twist::{bytes_of, having, lines_of, Lines};
use engine::Engine;

/// Well formed mostly, up to its last line.
pub fn absurd(prng: &mut Prng, lines: &mut Lines) {
    match prng.below(6) {
        0 | 1 => many_records(prng, lines),
        2 => long_chain(prng, lines),
        3 => many_runs(prng, lines),
        4 => many_numbers(prng, lines),
        _ => wild_sizes(prng, lines),
    }
}

fn record(id: u64, marked: bool) -> Lines {
    let name = [b'A' + (id / 26 % 26) as u8, b'A' + (id % 26) as u8];
    let name = String::from_utf8_lossy(&name).to_string();
    let lines = [format!("id={}", id), format!("name={}", name)];
    let rest = ["priority=1", "state=0", "why=-", "due=-", "interval=-"];
    let mark = Some("suspend=1").filter(|_| marked);
    lines.into_iter().chain(rest.into_iter().chain(mark).map(String::from)).collect()
}

/// 33 to 40 records or more, upward or not, counted rightly or nearly.
fn many_records(prng: &mut Prng, lines: &mut Lines) {
    let count = prng.pick(&[31, 32, 33, 33, 34, 40, 64, 257, 300]);
    let start = having(lines, "programs").first().copied().unwrap_or(0);
    let end = having(lines, "chain1").first().copied().unwrap_or(start + 1);
    let id = |k: u64| match count % 3 {
        0 => k,
        1 => (k - 1) % 32 + 1,
        _ => 32,
    };
    let marks = prng.chance(1, 4);
    let records: Lines = (1..=count).flat_map(|k| record(id(k), marks)).collect();
    lines.splice(start + 1..end, records);
    let told = prng.pick(&[count, count, count, count, count - 1, count + 1]);
    lines[start] = format!("programs={}", told);
    // Chains of programs that are there no more.
    if prng.chance(3, 4) {
        for line in lines.iter_mut().filter(|line| line.starts_with("chain")) {
            line.truncate("chain1=".len());
        }
        lines.retain(|line| !line.starts_with("held=") && !line.starts_with("number="));
    }
}

fn long_chain(prng: &mut Prng, lines: &mut Lines) {
    let size = prng.pick(&[33, 34, 100, 1_000, 5_000]);
    let any = prng.between(1, 32);
    let most = prng.pick(&[1, 33, 10_000_000_000_000]);
    let members: Vec<String> = (0..size).map(|k| ((any + k) % most).to_string()).collect();
    let key = prng.pick(&["chain1", "chain3", "chain5", "chain6"]);
    if let Some(at) = having(lines, key).first() {
        lines[*at] = format!("{}={}", key, members.join(","));
    }
}

/// 257 runs and more, within 256 tracks or beyond them.
fn many_runs(prng: &mut Prng, lines: &mut Lines) {
    let count = prng.pick(&[257, 300, 1_000]);
    let all = prng.pick(&[1, 256, 1_000]);
    let run = |k: u64| format!("held={}-{}:{}", k % all, k % all, ["global", "1"][k as usize % 2]);
    let at = having(lines, "chain6").first().map_or(lines.len(), |place| place + 1);
    lines.splice(at..at, (0..count).map(run));
}

fn many_numbers(prng: &mut Prng, lines: &mut Lines) {
    let count = prng.pick(&[17, 20, 257, 300]);
    let first = prng.pick(&[1, 0, 2]);
    let lock = prng.pick(&["-", "1", "0"]);
    let number = |r: u64| format!("number={}:global:{}", r, lock);
    lines.retain(|line| !line.starts_with("number="));
    let at = lines.len() - 1;
    lines.splice(at..at, (first..first + count).map(number));
}

fn wild_sizes(prng: &mut Prng, lines: &mut Lines) {
    let wild: [u64; 6] = [257, 65_536, 65_537, 1 << 32, (1 << 32) + 1, 9_999_999_999_999];
    let keys = ["clock", "year", "tracks", "system", "numbers", "id", "state", "priority"];
    let key = prng.pick(&keys);
    let places = having(lines, key);
    if !places.is_empty() {
        lines[prng.pick(&places)] = format!("{}={}", key, prng.pick(&wild));
    }
}

/// A page with every key and every kind of why in it.
pub const EXAMPLE: &str =
    "page=rte2\nclock=7\nyear=1996\ntracks=9\nsystem=1\nnumbers=3\nprograms=5\n\
    id=1\nname=A\npriority=10\nstate=1\nwhy=-\ndue=-\ninterval=-\n\
    id=2\nname=WHZAT\npriority=10\nstate=3\nwhy=son:1\ndue=8\ninterval=0\n\
    id=3\nname=C3\npriority=9\nstate=3\nwhy=lock:2\ndue=100\ninterval=17\nsuspend=1\n\
    id=17\nname=D\npriority=0\nstate=5\nwhy=tracks:9\ndue=-\ninterval=-\nsuspend=1\n\
    id=32\nname=E\npriority=32767\nstate=3\nwhy=number\ndue=-\ninterval=-\n\
    chain1=1\nchain3=3,2,32\nchain5=17\nchain6=\n\
    held=1-3:17\nheld=4-4:global\nheld=7-8:17\nnumber=1:global:-\nnumber=3:2:32\nend=page\n";

/// What stands in the place of the year: right ones, such as no sound tables write, and misshapen
/// ones.
const YEARS: [&str; 27] = [
    "year=1970",
    "year=1974",
    "year=1976",
    "year=2000",
    "year=2099",
    "year=1975",
    "year=0",
    "year=1",
    "year=75",
    "year=1969",
    "year=2100",
    "year=67512",
    "year=4294969272",
    "year=1000000001976",
    "year=9999999999999",
    "year=10000000001976",
    "year=99999999999999",
    "year=00000000001976",
    "year=01976",
    "year=",
    "year=-",
    "year=+1976",
    "year=1976 ",
    "year= 1976",
    "year=1976=1976",
    "Year=1976",
    "year1976",
];

/// Pages of a fixed kind, each with what it is.
pub fn fixed() -> Vec<(&'static str, Vec<u8>)> {
    let mut pages: Vec<(&str, Vec<u8>)> = Vec::new();
    let example = EXAMPLE.as_bytes();
    for end in 0..=example.len() {
        pages.push(("cut at every byte", example[..end].to_vec()));
    }
    let lines = lines_of(example);
    for place in 0..lines.len() {
        let mut fewer = lines.clone();
        fewer.remove(place);
        pages.push(("each line left out", bytes_of(&fewer)));
        let mut more = lines.clone();
        more.insert(place, lines[place].clone());
        pages.push(("each line doubled", bytes_of(&more)));
        if place > 0 {
            let mut other = lines.clone();
            other.swap(place - 1, place);
            pages.push(("each line exchanged with the next", bytes_of(&other)));
        }
    }
    for (line, _) in STRANGE {
        for place in 0..=lines.len() {
            let mut more = lines.clone();
            more.insert(place, line.to_string());
            pages.push(("a line that a page has not, or not there", bytes_of(&more)));
        }
    }
    for line in YEARS {
        let mut other = lines.clone();
        other[2] = line.to_string();
        pages.push(("a line of the year", bytes_of(&other)));
        other.insert(2, lines[2].clone());
        pages.push(("two lines of the year", bytes_of(&other)));
        other.swap(2, 3);
        pages.push(("two lines of the year", bytes_of(&other)));
    }
    // All of one holder, in two parts.
    let whole = Engine::fresh(6, 0, 0, 1975).0.page_bytes();
    let whole = String::from_utf8_lossy(&whole).to_string();
    for first in 0..5 {
        let held = format!("held=0-{}:global\nheld={}-5:global\nend=", first, first + 1);
        pages.push(("a run in parts", whole.replace("end=", &held).into_bytes()));
    }
    let million = "1".repeat(1_000_000);
    let chain = "1,".repeat(500_000) + "1";
    for (old, new) in [
        ("clock=7", format!("clock={}", million)),
        ("name=A", format!("name={}", million)),
        ("chain1=1", format!("chain1={}", chain)),
        ("chain6=", format!("chain6={}", chain)),
        ("why=number", format!("why={}", million)),
        ("end=page", format!("end=page{}", million)),
        ("end=page", million),
    ] {
        let page = EXAMPLE.replace(&format!("\n{}\n", old), &format!("\n{}\n", new));
        pages.push(("a line of a megabyte", page.into_bytes()));
    }
    pages
}

/// Each byte of the example becomes each of these bytes.
pub fn every_byte(bytes: impl Iterator<Item = u8> + Clone) -> impl Iterator<Item = Vec<u8>> {
    (0..EXAMPLE.len()).flat_map(move |place| {
        bytes.clone().map(move |byte| {
            let mut page = EXAMPLE.as_bytes().to_vec();
            page[place] = byte;
            page
        })
    })
}
