//! Texts, pages and pairs of texts whose speed is measured.

use comparer::make;
use comparer::script::generate;
use comparer::texts::Pair;
use engine::sheet;
use engine::ticks::MOST_TICKS;

/// Generated scripts one after the other, so many lines in all.
pub fn mixed(lines: usize) -> Vec<u8> {
    let mut text = Vec::new();
    let mut seed = 1;
    let mut left = lines;
    while left > 0 {
        let part = left.min(250);
        text.extend(generate(seed, part));
        if !text.ends_with(b"\n") {
            text.push(b'\n');
        }
        left -= part;
        seed += 1;
    }
    text
}

fn joined(lines: Vec<String>) -> Vec<u8> {
    let mut text = lines.join("\n").into_bytes();
    text.push(b'\n');
    text
}

/// An opening, then the lines of a cycle over and over, so many lines in all.
fn repeated(opening: Vec<String>, cycle: &[String], lines: usize) -> Vec<u8> {
    let left = lines.saturating_sub(opening.len());
    let mut list = opening;
    list.extend(cycle.iter().cycle().take(left).cloned());
    joined(list)
}

fn name(k: usize) -> String {
    format!("P{}", k)
}

/// So many programs of one priority, all scheduled.
fn scheduled(opening: &mut Vec<String>, programs: usize) {
    opening.extend((1..=programs).map(|k| format!("LOAD,{},10", name(k))));
    opening.extend((1..=programs).map(|k| format!("RU,{}", name(k))));
}

/// Timers of 32 programs, with intervals of 1 to 32 ticks, and nothing but ticks.
pub fn ticks(lines: usize) -> Vec<u8> {
    let mut opening = vec![String::from("FRESH,256,0,16")];
    scheduled(&mut opening, 32);
    opening.extend((1..=32).map(|k| format!("EXEC,12,{},1,{},{}", name(k), k, k)));
    repeated(opening, &[String::from("TICK")], lines)
}

/// 32 programs that are dormant, each with a timer: its resolution, multiple and offset.
fn dormant(timer: impl Fn(u64) -> (u64, u64, u64)) -> Vec<String> {
    let mut opening = vec![String::from("FRESH,256,0,16")];
    opening.extend((1..=32).map(|k| format!("LOAD,{},10", name(k))));
    opening.push(format!("RU,{}", name(1)));
    for k in 1..=32 {
        let (resolution, multiple, offset) = timer(k as u64);
        opening.push(format!("EXEC,12,{},{},{},{}", name(k), resolution, multiple, offset));
    }
    opening.push(String::from("EXEC,6"));
    opening
}

/// Timers of 7 seconds to 10 hours.
pub fn winter_tables() -> Vec<u8> {
    joined(dormant(|k| match k {
        1..=12 => (2, 7 * k, 5 * k),
        13..=22 => (3, k - 9, 2 * k),
        _ => (4, k - 22, 33 - k),
    }))
}

/// 26 weeks.
const WINTER: u64 = 26 * 7 * 8_640_000;

/// A winter in lines of at most 100,000,000 ticks; after each the 32 programs, all of which it
/// started, end one by one.
pub fn winter() -> Vec<u8> {
    let mut text = winter_tables();
    let mut left = WINTER;
    while left > 0 {
        let n = left.min(MOST_TICKS);
        text.extend(format!("TICK,{}\n", n).bytes());
        text.extend(b"EXEC,6\n".repeat(32));
        left -= n;
    }
    text
}

/// Timers that are due at every tick.
pub fn every_tick_tables() -> Vec<u8> {
    joined(dormant(|_| (1, 1, 1)))
}

/// The same, and the most ticks of one line.
pub fn every_tick() -> Vec<u8> {
    [every_tick_tables(), format!("TICK,{}\n", MOST_TICKS).into_bytes()].concat()
}

/// Timers that are due in the morning, 13 hours on and later.
pub fn night_tables() -> Vec<u8> {
    joined(dormant(|k| (4, k, 12 + k)))
}

/// Nothing but pages of tables in which every record, track and number is in use.
pub fn pages(lines: usize) -> Vec<u8> {
    let mut opening = vec![String::from("FRESH,256,0,16")];
    scheduled(&mut opening, 32);
    opening.extend((1..=32).map(|k| format!("EXEC,12,{},4,4095,4095", name(k))));
    for _ in 0..128 {
        opening.extend([String::from("EXEC,4,1,1"), String::from("EXEC,15,1,1")]);
    }
    for r in 1..=16 {
        opening.push(String::from("RN,ALLOC,G,1"));
        opening.push(format!("RN,LOCK,{},1", r));
    }
    // Nine are suspended, nine wait for tracks, nine for a lock, five stay scheduled.
    for k in 1..=9 {
        opening.push(format!("SS,{}", name(k)));
    }
    opening.extend((10..=18).map(|_| String::from("EXEC,4,256,0")));
    for _ in 19..=27 {
        opening.push(String::from("RN,LOCK,16,0"));
    }
    repeated(opening, &[String::from("PAGE")], lines)
}

/// Every second track is free, so that no claim of two succeeds: such claims and claims of one, in
/// turn, until all tracks are held, and then what was claimed is given back.
pub fn claims(tracks: usize, lines: usize) -> Vec<u8> {
    let mut cycle = Vec::new();
    for _ in 0..tracks / 2 {
        cycle.extend([String::from("EXEC,4,2,1"), String::from("EXEC,4,1,1")]);
    }
    cycle.push(String::from("EXEC,4,1,1"));
    cycle.push(String::from("EXEC,5,ALL"));
    repeated(fragments(tracks), &cycle, lines)
}

fn fragments(tracks: usize) -> Vec<String> {
    let mut opening = vec![format!("FRESH,{},0,0", tracks)];
    scheduled(&mut opening, 1);
    for _ in 0..tracks / 2 {
        opening.extend([String::from("EXEC,4,1,1"), String::from("EXEC,15,1,1")]);
    }
    opening.push(String::from("EXEC,5,ALL"));
    opening
}

/// Lines that concern programs and chains, the same whatever their number.
pub fn by_programs(programs: usize, lines: usize) -> Vec<u8> {
    let mut opening = vec![String::from("FRESH,16,0,4")];
    scheduled(&mut opening, programs);
    opening.extend((1..=programs).map(|k| format!("EXEC,12,{},4,4095,4095", name(k))));
    let mut cycle = Vec::new();
    for k in 1..=programs {
        cycle.push(format!("SS,{}", name(k)));
        cycle.push(format!("GO,{}", name(k)));
        cycle.push(format!("PR,{},10", name(k)));
        cycle.push(String::from("TICK"));
        cycle.push(String::from("EXEC,11"));
    }
    repeated(opening, &cycle, lines)
}

/// Claims in fragmented tracks, the same lines whatever their number.
pub fn by_tracks(tracks: usize, lines: usize) -> Vec<u8> {
    let cycle = ["EXEC,4,2,1", "EXEC,4,1,1", "EXEC,15,2,1", "EXEC,5,ALL"].map(String::from);
    repeated(fragments(tracks), &cycle, lines)
}

/// The longest page that sound tables have.
pub fn full_page() -> Vec<u8> {
    make::largest().engine().expect("sound tables").page_bytes()
}

/// The page of three programs, one of which waits for another.
pub fn small_page() -> Vec<u8> {
    let lines = [
        "FRESH,16,2,2",
        "LOAD,WHZAT,10",
        "LOAD,FTN,20",
        "LOAD,ASMB,30",
        "RU,WHZAT",
        "EXEC,4,2,0",
        "RN,ALLOC,L,0",
        "EXEC,12,ASMB,2,10,5",
        "EXEC,9,FTN",
    ];
    let set_up = joined(lines.map(String::from).to_vec());
    let printed = sheet(&[&set_up, "PAGE\n".as_bytes()].concat());
    printed[sheet(&set_up).len()..].to_vec()
}

/// The longest page twice.
pub fn same_pages() -> Pair {
    Pair { original: full_page(), copy: full_page() }
}

/// The same with one figure changed in the middle of the copy.
pub fn one_figure() -> Pair {
    let Pair { original, mut copy } = same_pages();
    let middle = copy.len() / 2;
    if let Some(place) = (middle..copy.len()).find(|place| copy[*place].is_ascii_digit()) {
        copy[place] = if copy[place] == b'1' { b'7' } else { b'1' };
    }
    Pair { original, copy }
}

/// Lines with so many keys in turn.
fn keyed(lines: usize, keys: usize) -> Vec<u8> {
    joined((0..lines).map(|line| format!("key{}={}", line % keys, line)).collect())
}

/// A text of such lines twice.
pub fn same_lines(lines: usize, keys: usize) -> Pair {
    Pair { original: keyed(lines, keys), copy: keyed(lines, keys) }
}

/// The same with the first line missing in the copy, so that no other is where it was.
pub fn first_missing(lines: usize, keys: usize) -> Pair {
    let Pair { original, copy } = same_lines(lines, keys);
    let behind = copy.iter().position(|byte| *byte == b'\n').map_or(0, |end| end + 1);
    Pair { original, copy: copy[behind..].to_vec() }
}
