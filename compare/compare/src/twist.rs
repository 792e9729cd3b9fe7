//! Pages that say something else: their lines are well formed, mostly, and no sound tables write
//! them, or other ones do.

use crate::prng::Prng;
use crate::years::allowed;
use engine::tables::{CEILING, FURTHEST};
use std::ops::Range;

/// The lines of a page, without their byte 10.
pub type Lines = Vec<String>;

pub fn lines_of(page: &[u8]) -> Lines {
    String::from_utf8_lossy(page).lines().map(String::from).collect()
}

pub fn bytes_of(lines: &[String]) -> Vec<u8> {
    lines.iter().flat_map(|line| line.bytes().chain([b'\n'])).collect()
}

pub fn key(line: &str) -> &str {
    line.split('=').next().unwrap_or("")
}

pub fn field(line: &str) -> &str {
    line.split_once('=').map_or("", |(_, field)| field)
}

/// The places of the lines with this key.
pub fn having(lines: &[String], wanted: &str) -> Vec<usize> {
    (0..lines.len()).filter(|place| key(&lines[*place]) == wanted).collect()
}

/// The place of any line, each key as likely as the others.
pub fn any_line(prng: &mut Prng, lines: &[String]) -> usize {
    let mut keys: Vec<&str> = lines.iter().map(|line| key(line)).collect();
    keys.sort_unstable();
    keys.dedup();
    let wanted = prng.pick(&keys);
    prng.pick(&having(lines, wanted))
}

/// The place of the first line with this key, or of the last line.
fn first(lines: &[String], wanted: &str) -> usize {
    lines.iter().position(|line| key(line) == wanted).unwrap_or(lines.len() - 1)
}

/// The number in the first line with this key.
fn told(lines: &[String], wanted: &str) -> u64 {
    field(&lines[first(lines, wanted)]).parse().unwrap_or(0)
}

/// One to three changes of one kind or of several.
pub fn twist(prng: &mut Prng, lines: &mut Lines) {
    for _ in 0..prng.pick(&[1, 1, 1, 2, 3]) {
        match prng.below(12) {
            11 => year(prng, lines),
            0 | 1 => one_number(prng, lines),
            2 => exchange(prng, lines),
            3 => runs(prng, lines),
            4 => allocations(prng, lines),
            5 => chains(prng, lines),
            6 => records(prng, lines),
            7 => waits(prng, lines),
            8 => timers(prng, lines),
            9 => marks(prng, lines),
            _ => sizes(prng, lines),
        }
    }
}

/// Where the numbers of a line's field are: start and end.
pub fn numbers_in(line: &str) -> Vec<(usize, usize)> {
    let from = line.find('=').map_or(line.len(), |place| place + 1);
    let bytes = line.as_bytes();
    let digit = |place: usize| bytes.get(place).map_or(false, u8::is_ascii_digit);
    let starts = (from..bytes.len()).filter(|place| digit(*place) && !digit(*place - 1));
    starts.map(|start| (start, (start..).find(|end| !digit(*end)).unwrap_or(start))).collect()
}

/// A line that has a number in its field, and where that is.
pub fn any_number(prng: &mut Prng, lines: &[String]) -> (usize, (usize, usize)) {
    loop {
        let place = any_line(prng, lines);
        let numbers = numbers_in(&lines[place]);
        if !numbers.is_empty() {
            return (place, prng.pick(&numbers));
        }
    }
}

/// A number becomes another: a step off, a digit changed, a bound, what fewer bits keep of it.
pub fn one_number(prng: &mut Prng, lines: &mut Lines) {
    let (place, (start, end)) = any_number(prng, lines);
    let old = lines[place][start..end].to_string();
    let value: u64 = old.parse().unwrap_or(0);
    let bounds = [
        0,
        1,
        2,
        4,
        6,
        7,
        15,
        16,
        17,
        31,
        32,
        33,
        34,
        35,
        255,
        256,
        257,
        1_969,
        1_970,
        1_975,
        2_099,
        2_100,
        32_767,
        32_768,
        FURTHEST,
        FURTHEST + 1,
        CEILING,
        CEILING + 1,
        9_999_999_999_999,
    ];
    let new = match prng.below(8) {
        0 => (value + 1).to_string(),
        1 => value.saturating_sub(1).to_string(),
        2 => one_for_seven(prng, &old),
        3 => one_digit(prng, &old),
        4 => (value + prng.pick(&[32, 256, 65_536, 1 << 32, 1 << 40])).to_string(),
        5 => (value + prng.below(40)).to_string(),
        _ => prng.pick(&bounds).to_string(),
    };
    lines[place].replace_range(start..end, &new);
}

fn one_for_seven(prng: &mut Prng, old: &str) -> String {
    let places: Vec<usize> = old.match_indices(['1', '7']).map(|(place, _)| place).collect();
    if places.is_empty() {
        return one_digit(prng, old);
    }
    let place = prng.pick(&places);
    let new = if old[place..].starts_with('1') { "7" } else { "1" };
    format!("{}{}{}", &old[..place], new, &old[place + 1..])
}

/// Another digit; a number keeps a first one that is not 0.
fn one_digit(prng: &mut Prng, old: &str) -> String {
    let place = prng.below(old.len() as u64) as usize;
    let least = u64::from(place == 0 && old.len() > 1);
    let digit = prng.between(least, 9);
    format!("{}{}{}", &old[..place], digit, &old[place + 1..])
}

/// Two fields of one key, or two numbers of one line.
fn exchange(prng: &mut Prng, lines: &mut Lines) {
    let one = any_line(prng, lines);
    let same = having(lines, key(&lines[one]));
    let two = prng.pick(&same);
    if one != two {
        let (first, second) = (field(&lines[one]).to_string(), field(&lines[two]).to_string());
        let key = key(&lines[one]).to_string();
        lines[one] = format!("{}={}", key, second);
        lines[two] = format!("{}={}", key, first);
        return;
    }
    let line = &lines[one];
    let numbers = numbers_in(line);
    if numbers.len() > 1 {
        let place = prng.below(numbers.len() as u64 - 1) as usize;
        let ((a, b), (c, d)) = (numbers[place], numbers[place + 1]);
        let parts = [&line[..a], &line[c..d], &line[b..c], &line[a..b], &line[d..]];
        lines[one] = parts.concat();
    }
}

/// The ids of the records.
fn ids(lines: &[String]) -> Vec<String> {
    having(lines, "id").iter().map(|place| field(&lines[*place]).to_string()).collect()
}

fn holder(prng: &mut Prng, lines: &[String]) -> String {
    let mut holders = ids(lines);
    holders.push(String::from("global"));
    let strange = prng.pick(&["0", "0", "33", "33", "34", "32", "31", "255"]);
    if prng.chance(1, 4) {
        return strange.to_string();
    }
    prng.pick(&holders)
}

/// A `held` line in its parts.
fn run_of(line: &str) -> Option<(u64, u64, String)> {
    let (run, holder) = field(line).split_once(':')?;
    let (first, last) = run.split_once('-')?;
    Some((first.parse().ok()?, last.parse().ok()?, holder.to_string()))
}

fn held(first: u64, last: u64, holder: &str) -> String {
    format!("held={}-{}:{}", first, last, holder)
}

/// Runs that are split, joined, reach into the next, change places, come twice, go, or are new.
pub fn runs(prng: &mut Prng, lines: &mut Lines) {
    let places = having(lines, "held");
    let (t, system) = (told(lines, "tracks"), told(lines, "system"));
    if places.is_empty() || prng.chance(1, 8) {
        // A new one, mostly at the place where it belongs.
        let any = prng.below(t + 1);
        let first = prng.pick(&[system, system.saturating_sub(1), any]);
        let last = first + prng.below(4);
        let behind = |place: &usize| run_of(&lines[*place]).map_or(true, |run| run.0 > first);
        let at = places.iter().copied().find(behind);
        let at = at.unwrap_or(places.last().map_or(lines.len() - 1, |last| last + 1));
        let holder = holder(prng, lines);
        lines.insert(at.min(lines.len()), held(first, last, &holder));
        return;
    }
    let at = prng.pick(&places);
    let (first, last, who) = match run_of(&lines[at]) {
        Some(run) => run,
        None => return,
    };
    let next = lines.get(at + 1).and_then(|line| run_of(line));
    match prng.below(11) {
        // In two, one behind the other.
        0 | 1 => {
            let middle = prng.between(first.min(last), last);
            lines[at] = held(first, middle, &who);
            lines.insert(at + 1, held(middle + 1, last.max(middle + 1), &who));
        }
        2 => lines[at] = held(last, first, &who),
        3 => lines[at] = held(first, last + 1, &who),
        4 => lines[at] = held(first.saturating_sub(1), last, &who),
        5 => {
            if let Some((_, last, _)) = next {
                lines[at] = held(first, last, &who);
                lines.remove(at + 1);
            }
        }
        // One holder for two neighbours.
        6 => {
            if let Some((first, last, _)) = next {
                lines[at + 1] = held(first, last, &who);
            }
        }
        7 => {
            let other = prng.pick(&places);
            lines.swap(at, other);
        }
        8 => lines.insert(at, lines[at].clone()),
        9 => {
            lines.remove(at);
        }
        _ => {
            let holder = holder(prng, lines);
            lines[at] = held(first, last, &holder);
        }
    }
}

/// Numbers that change places, come twice, go, are new, or have another owner or lock.
fn allocations(prng: &mut Prng, lines: &mut Lines) {
    let places = having(lines, "number");
    let end = lines.len() - 1;
    let any = prng.between(1, told(lines, "numbers").clamp(1, 40));
    let r = prng.pick(&[any, any, any, 0, any + 1, 17]);
    let owner = holder(prng, lines);
    let lock = if prng.chance(1, 2) { String::from("-") } else { holder(prng, lines) };
    // No number is locked globally.
    let lock = if lock == "global" && prng.chance(4, 5) { String::from("-") } else { lock };
    let lock = if prng.chance(1, 12) { String::from("global") } else { lock };
    let new = format!("number={}:{}:{}", r, owner, lock);
    if places.is_empty() || prng.chance(1, 4) {
        let before = |place: &&usize| {
            let number = field(&lines[**place]).split(':').next().map(str::to_string);
            number.and_then(|number| number.parse().ok()).unwrap_or(0) >= r
        };
        let at = places.iter().find(before).copied().unwrap_or(end);
        lines.insert(at, new);
        return;
    }
    let at = prng.pick(&places);
    match prng.below(6) {
        0 | 1 => {
            let other = prng.pick(&places);
            lines.swap(at, other);
        }
        2 => lines.insert(at, lines[at].clone()),
        3 => {
            lines.remove(at);
        }
        4 => {
            // The lock alone.
            let front = lines[at].rfind(':').map_or(0, |place| place + 1);
            let locks = [lock, String::from("0"), String::from("-")];
            lines[at] = format!("{}{}", &lines[at][..front], prng.pick(&locks));
        }
        _ => {
            let r = field(&lines[at]).split(':').next().unwrap_or("1").to_string();
            lines[at] = format!("number={}:{}:{}", r, owner, lock);
        }
    }
}

const CHAIN_KEYS: [&str; 4] = ["chain1", "chain3", "chain5", "chain6"];

/// Members that change places, come twice, go, or come from elsewhere.
pub fn chains(prng: &mut Prng, lines: &mut Lines) {
    // One that has members, if there is any.
    let wanted = |line: &&String| CHAIN_KEYS.contains(&key(line)) && !field(line).is_empty();
    let full: Vec<String> = lines.iter().filter(wanted).map(|line| key(line).into()).collect();
    let one = if full.is_empty() || prng.chance(1, 6) {
        prng.pick(&CHAIN_KEYS).to_string()
    } else {
        prng.pick(&full)
    };
    let at = first(lines, &one);
    let mut members: Vec<String> =
        field(&lines[at]).split(',').filter(|p| !p.is_empty()).map(String::from).collect();
    let mut anybody = ids(lines);
    anybody.extend(["0", "32", "33"].map(String::from));
    let somebody = prng.pick(&anybody);
    let place = prng.below(members.len() as u64) as usize;
    let other = prng.below(members.len() as u64 + 1) as usize;
    match prng.below(7) {
        0 | 1 if place + 1 < members.len() => members.swap(place, place + 1),
        2 if !members.is_empty() => members.insert(other, members[place].clone()),
        3 if !members.is_empty() => {
            members.remove(place);
        }
        4 if !members.is_empty() => {
            // Into another chain.
            let moved = members.remove(place);
            let to = first(lines, prng.pick(&CHAIN_KEYS));
            let comma = if field(&lines[to]).is_empty() { "" } else { "," };
            if to != at {
                lines[to] = format!("{}{}{}", lines[to], comma, moved);
            }
        }
        5 => members.insert(other, somebody),
        _ => members.reverse(),
    }
    lines[at] = format!("{}={}", one, members.join(","));
}

/// The lines of a record without its mark: seven from each id.
const RECORD: usize = 7;

/// The lines of the record whose id stands here, with its mark if it has one.
fn record_at(lines: &[String], at: usize) -> Range<usize> {
    let behind = at + RECORD;
    let marked = lines.get(behind).map_or(false, |line| key(line) == "suspend");
    at..(behind + usize::from(marked)).min(lines.len())
}

/// Whole records that change places, come twice, go or are new, with the count or without it.
fn records(prng: &mut Prng, lines: &mut Lines) {
    let places = having(lines, "id");
    let at = first(lines, "chain1");
    let mut count = told(lines, "programs");
    if places.is_empty() || prng.chance(1, 6) {
        let id = prng.pick(&[1, 2, 31, 32, 33, 0, count + 1]);
        let new = ["name=NEWLY", "priority=5", "state=0", "why=-", "due=-", "interval=-"];
        let new = new.iter().map(|line| line.to_string());
        let at = places.iter().copied().find(|_| prng.chance(1, 4)).unwrap_or(at);
        lines.splice(at..at, std::iter::once(format!("id={}", id)).chain(new));
        count += 1;
    } else {
        let (one, two) = (prng.pick(&places), prng.pick(&places));
        let whole: Lines = lines[record_at(lines, one)].to_vec();
        match prng.below(6) {
            0 => {
                // The later one first, so that the place of the other stays.
                let (front, back) = (one.min(two), one.max(two));
                let (first, second) = (record_at(lines, front), record_at(lines, back));
                let other: Lines = lines[second.clone()].to_vec();
                let moved: Lines = lines[first.clone()].to_vec();
                lines.splice(second, moved);
                lines.splice(first, other);
            }
            1 => {
                lines.splice(two..two, whole);
                count += 1;
            }
            2 => {
                lines.drain(record_at(lines, one));
                count = count.saturating_sub(1);
            }
            3 => lines[one + 1] = lines[two + 1].clone(),
            // The ids alone, so that the records stay upward or not.
            4 => lines[one] = format!("id={}", prng.between(1, 32)),
            _ => lines[one + 3] = format!("state={}", prng.below(8)),
        }
    }
    let told = first(lines, "programs");
    lines[told] = format!("programs={}", count);
}

/// Another why, fitting the state or not, now and then another state.
fn waits(prng: &mut Prng, lines: &mut Lines) {
    let places = having(lines, "why");
    if places.is_empty() {
        return;
    }
    // Mostly of one that waits.
    let waiting: Vec<usize> = places.iter().copied().filter(|at| lines[*at] != "why=-").collect();
    let waits = !waiting.is_empty() && prng.chance(3, 4);
    let at = prng.pick(if waits { &waiting } else { &places });
    let (t, r) = (told(lines, "tracks"), told(lines, "numbers"));
    let own = field(&lines[at - 4]).to_string();
    let mut anybody = ids(lines);
    anybody.extend([own, String::from("0"), String::from("33")]);
    let son = prng.pick(&anybody);
    let new = match prng.below(7) {
        0 => String::from("-"),
        1 => String::from("number"),
        2 => format!("tracks:{}", prng.pick(&[0, 1, t, t + 1])),
        3 => format!("lock:{}", prng.pick(&[0, 1, r, r + 1])),
        _ => format!("son:{}", son),
    };
    lines[at] = format!("why={}", new);
    if prng.chance(1, 6) {
        lines[at - 1] = format!("state={}", prng.below(8));
    }
}

/// The mark of a program that waits, or of any other, is there, gone, or at another program.
fn marks(prng: &mut Prng, lines: &mut Lines) {
    let marked = having(lines, "suspend");
    if !marked.is_empty() && prng.chance(1, 2) {
        lines.remove(prng.pick(&marked));
        if prng.chance(1, 2) {
            return;
        }
    }
    let waits = |at: &usize| ["state=3", "state=5"].contains(&lines[*at].as_str());
    let all = having(lines, "state");
    let waiting: Vec<usize> = all.iter().copied().filter(waits).collect();
    let fitting = if waiting.is_empty() || prng.chance(1, 3) { all } else { waiting };
    if !fitting.is_empty() {
        // Behind the interval, which is three lines below; one that is marked already has two then.
        let at = prng.pick(&fitting) + 4;
        let twice = lines.get(at).map_or(true, |line| key(line) == "suspend");
        if !twice || prng.chance(1, 8) {
            lines.insert(at.min(lines.len()), String::from("suspend=1"));
        }
    }
}

/// A due at its bounds, an interval at its bound, and one of them without the other.
fn timers(prng: &mut Prng, lines: &mut Lines) {
    let places = having(lines, "due");
    if places.is_empty() {
        return;
    }
    let at = prng.pick(&places);
    let clock = told(lines, "clock");
    let furthest = clock + FURTHEST;
    match prng.below(5) {
        0 => lines[at] = String::from("due=-"),
        1 => lines[at + 1] = String::from("interval=-"),
        2 => {
            let interval = prng.pick(&[0, 1, FURTHEST, FURTHEST + 1]);
            lines[at + 1] = format!("interval={}", interval);
        }
        3 => {
            lines[at] = String::from("due=0");
            lines[at + 1] = String::from("interval=0");
        }
        _ => {
            let due = prng.pick(&[0, clock, clock + 1, furthest, furthest + 1]);
            lines[at] = format!("due={}", due);
        }
    }
}

/// A line of the year where it may stand, with a year that is one or none, or gone. The usual one is
/// never written.
fn year(prng: &mut Prng, lines: &mut Lines) {
    let at = first(lines, "clock") + 1;
    let there = lines.get(at).map_or(false, |line| key(line) == "year");
    if there && prng.chance(1, 4) {
        lines.remove(at);
        return;
    }
    let any = allowed(prng);
    let right = prng.chance(1, 3);
    let wrong = prng.pick(&[
        1975,
        1975,
        1975,
        1969,
        1969,
        2100,
        2100,
        0,
        75,
        2415,
        65_536 + any,
        (1 << 32) + any,
        1_000_000_000_000 + any,
        9_999_999_999_999,
    ]);
    let new = format!("year={}", if right { any } else { wrong });
    if there {
        lines[at] = new;
    } else {
        lines.insert(at.min(lines.len()), new);
    }
}

/// The clock, T, S and R, a step off or at their bounds.
fn sizes(prng: &mut Prng, lines: &mut Lines) {
    let at = prng.pick(&["clock", "tracks", "system", "numbers"]);
    let (t, old) = (told(lines, "tracks"), told(lines, at));
    let bounds = match at {
        "clock" => [0, CEILING, CEILING + 1, old + 1],
        "tracks" => [0, 256, 257, old + 1],
        "system" => [0, t, t + 1, old + 1],
        _ => [0, 16, 17, old + 1],
    };
    let new = if prng.chance(1, 4) { old.saturating_sub(1) } else { prng.pick(&bounds) };
    let place = first(lines, at);
    lines[place] = format!("{}={}", at, new);
}
