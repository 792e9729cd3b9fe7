//! Pages with lines that are not well formed, mostly: bytes changed, lines gone astray, keys
//! misspelt, fields of another shape, a page cut or stretched.

use crate::prng::Prng;
use crate::twist::{any_line, any_number, field, having, key, Lines};
use crate::years::allowed;

/// Bytes that mean something on a page, or nearly.
const TELLING: &[u8] = b"0123456789=,:-\n\r /;@[`{AZaz\0\xff\x8a";

/// One byte changed, put in or dropped.
pub fn byte(prng: &mut Prng, page: &mut Vec<u8>) {
    let place = prng.below(page.len() as u64) as usize;
    let any = prng.below(256) as u8;
    let new = if prng.chance(3, 4) { prng.pick(TELLING) } else { any };
    match prng.below(5) {
        0 => page.insert(place, new),
        1 => {
            page.remove(place);
        }
        2 => page[place] ^= 1 << prng.below(8),
        _ => page[place] = new,
    }
}

/// A line left out, doubled, moved, two of them exchanged, or one that a page has not.
pub fn line(prng: &mut Prng, lines: &mut Lines) {
    let one = any_line(prng, lines);
    let two = any_line(prng, lines);
    match prng.below(6) {
        0 => {
            lines.remove(one);
        }
        1 => lines.insert(one, lines[one].clone()),
        2 => {
            let moved = lines.remove(one);
            lines.insert(two.min(lines.len()), moved);
        }
        3 => lines.swap(one, two),
        4 if one + 1 < lines.len() => lines.swap(one, one + 1),
        _ => {
            let (new, before) = prng.pick(&STRANGE);
            let place = having(lines, before).first().copied().unwrap_or(one);
            lines.insert(if prng.chance(2, 3) { place } else { one }, new.to_string());
        }
    }
}

/// Lines that a page has not, those of later requests among them, or has at other places, each with
/// the key before which it would stand: a year stands there.
pub const STRANGE: [(&str, &str); 14] = [
    ("", "end"),
    ("=", "clock"),
    ("suspend=1", "chain1"),
    ("suspend=0", "chain1"),
    ("suspend=2", "chain1"),
    ("year=1975", "tracks"),
    ("year=1976", "tracks"),
    ("year=2100", "tracks"),
    ("year=", "tracks"),
    ("year=02000", "tracks"),
    ("chain4=", "chain5"),
    ("chain2=", "chain3"),
    ("mail=1:0", "end"),
    ("class=1", "end"),
];

/// A line of the mark that is none: of another value, doubled, or at another place.
pub fn mark(prng: &mut Prng, lines: &mut Lines) {
    let right = String::from("suspend=1");
    let behind: Vec<usize> = having(lines, "interval").iter().map(|at| at + 1).collect();
    let head = having(lines, "programs").first().map_or(0, |at| at + 1);
    // Behind an interval, where a mark may stand; without any record, behind the head.
    let at = if behind.is_empty() { head } else { prng.pick(&behind) };
    let marked = lines.get(at).map_or(false, |line| key(line) == "suspend");
    match prng.below(8) {
        // Of another value: in the place of one that stands there, or as the only one.
        0..=2 => {
            let values = ["0", "0", "2", "2", "3", "9", "10", "11", "01", "00", "-", "", "1 ", "A"];
            let new = format!("suspend={}", prng.pick(&values));
            if marked {
                lines[at] = new;
            } else {
                lines.insert(at, new);
            }
        }
        3 => {
            for _ in usize::from(marked)..prng.pick(&[2, 2, 2, 3]) {
                lines.insert(at, right.clone());
            }
        }
        // Before the interval, or further up in its record.
        4 if !behind.is_empty() => {
            let up = prng.pick(&[1, 1, 1, 2, 3, 4, 5, 6, 7]);
            if marked {
                lines.remove(at);
            }
            lines.insert(at.saturating_sub(up), right);
        }
        // Behind the next id, or behind chain1.
        5 => {
            let next = (at..lines.len()).find(|at| ["id", "chain1"].contains(&key(&lines[*at])));
            if marked {
                lines.remove(at);
            }
            let next = next.map_or(lines.len(), |next| next + 1 - usize::from(marked));
            lines.insert(next, right);
        }
        // In the head, in front of it and right behind it.
        6 => lines.insert(prng.below(head as u64 + 1) as usize, right),
        // Among the lines behind the records.
        _ => {
            let from = having(lines, "chain1").first().map_or(0, |at| at + 1);
            let at = from + prng.below((lines.len() - from) as u64 + 1) as usize;
            lines.insert(at.min(lines.len()), right);
        }
    }
}

/// A line of the year that is none: misshapen, doubled, or at another place; now and then a right one
/// at its place.
pub fn year(prng: &mut Prng, lines: &mut Lines) {
    let any = allowed(prng);
    let right = format!("year={}", prng.pick(&[any, any, any, 1975]));
    let behind = having(lines, "clock").first().map_or(0, |at| at + 1);
    let there = lines.get(behind).map_or(false, |line| key(line) == "year");
    let old = if there { Some(lines.remove(behind)) } else { None };
    let right = old.unwrap_or(right);
    match prng.below(8) {
        0 | 1 => {
            let fields = [
                String::new(),
                format!("0{}", any),
                format!("0000000{}", any),
                format!("{:0>13}", any),
                format!("{:0>14}", any),
                format!("{:0<13}", any),
                format!("{:0<14}", any),
                format!("1000000000{}", any),
                format!("{} ", any),
                format!(" {}", any),
                format!("+{}", any),
                format!("-{}", any),
                format!("{}-", any),
                format!("{}:{}", any, any),
                format!("{}.1", any),
                String::from("-"),
                String::from("A"),
                any.to_string()[..2].to_string(),
            ];
            lines.insert(behind, format!("year={}", prng.pick(&fields)));
        }
        2 | 3 => {
            let keys = ["Year", "YEAR", "years", "yea", "year ", " year", "", "day"];
            let doubled = [right.clone(), format!("year={}", any), String::from("year=1975")];
            if prng.chance(1, 3) {
                lines.insert(behind, format!("{}={}", prng.pick(&keys), any));
            } else {
                lines.insert(behind, right);
                lines.insert(behind + prng.below(2) as usize, prng.pick(&doubled));
            }
        }
        // Before the clock, or one to three lines behind its place.
        4 => lines.insert(behind.saturating_sub(1), right),
        5 => lines.insert((behind + prng.between(1, 3) as usize).min(lines.len()), right),
        6 => {
            let at = prng.below(lines.len() as u64 + 1) as usize;
            lines.insert(at, right);
        }
        _ => lines.insert(behind, right),
    }
}

/// A number with a zero in front of it, stretched, or gone.
pub fn digits(prng: &mut Prng, lines: &mut Lines) {
    let (place, (start, end)) = any_number(prng, lines);
    let old = lines[place][start..end].to_string();
    let size = prng.pick(&[12, 13, 13, 14, 14, 15, 20, 40]);
    let stretched: String = old.chars().cycle().take(size).collect();
    let new = match prng.below(8) {
        0 => format!("0{}", old),
        1 => format!("00{}", old),
        2 => format!("{:0>13}", old),
        3 => format!("{:0>14}", old),
        4 => String::new(),
        5 => format!("{}{}", prng.pick(&["+", "-", " "]), old),
        // With zeros behind, so that it is a number of that many digits.
        6 => format!("{:0<width$}", old, width = size),
        _ => stretched,
    };
    lines[place].replace_range(start..end, &new);
}

/// Cut at any byte, often at the end of a line or close to the page's end.
pub fn cut(prng: &mut Prng, page: &mut Vec<u8>) {
    let ends: Vec<usize> = (0..page.len()).filter(|place| page[*place] == b'\n').collect();
    let any = prng.below(page.len() as u64) as usize;
    let at = match prng.below(4) {
        0 => prng.pick(&ends) + 1,
        1 => prng.pick(&ends),
        2 => page.len() - 1 - prng.below(12) as usize,
        _ => any,
    };
    page.truncate(at);
}

/// Bytes behind the end.
pub fn tail(prng: &mut Prng, page: &mut Vec<u8>) {
    let more: [&[u8]; 10] = [
        b"\n",
        b"\0",
        b" ",
        b"x",
        b"end=page\n",
        b"end=page",
        b"held=0-0:1\n",
        b"page=rte2\n",
        b"\r\n",
        b"\n\n",
    ];
    if prng.chance(1, 6) {
        let again = page.clone();
        page.extend(again);
    } else {
        page.extend_from_slice(prng.pick(&more));
    }
}

/// CR LF at one line or at all of them, LF CR, CR alone, no byte 10 between two lines.
pub fn ends(prng: &mut Prng, page: &mut Vec<u8>) {
    let places: Vec<usize> = (0..page.len()).filter(|place| page[*place] == b'\n').collect();
    let one = prng.pick(&places);
    let new: &[u8] = prng.pick(&[b"\r\n", b"\n\r", b"\r", b"", b" \n", b"\n\n", b"\0\n"]);
    let all = prng.chance(1, 3);
    for place in places.into_iter().rev() {
        if all || place == one {
            page.splice(place..=place, new.iter().copied());
        }
    }
}

/// A key that is none, or that of another line.
pub fn misspelt(prng: &mut Prng, lines: &mut Lines) {
    let at = any_line(prng, lines);
    let (old, value) = (key(&lines[at]).to_string(), field(&lines[at]).to_string());
    let middle = prng.below(old.len() as u64) as usize;
    let other = any_line(prng, lines);
    let other = key(&lines[other]).to_string();
    lines[at] = match prng.below(10) {
        0 => format!("{}={}", old.to_uppercase(), value),
        1 => format!("{}{}={}", &old[..middle], &old[middle + 1..], value),
        2 => format!("{}s={}", old, value),
        3 => format!("{}{}", old, value),
        4 => format!("{}=={}", old, value),
        5 => format!("{} ={}", old, value),
        6 => format!(" {}={}", old, value),
        7 => format!("{}:{}", old, value),
        8 => old,
        _ => format!("{}={}", other, value),
    };
}

/// A field of another shape.
pub fn misshapen(prng: &mut Prng, lines: &mut Lines) {
    let at = any_line(prng, lines);
    let name = key(&lines[at]).to_string();
    let old = field(&lines[at]).to_string();
    let words: &[&str] = match name.as_str() {
        "page" => &["rte", "rte3", "RTE2", "rte22", "", "rte2 ", "2"],
        "end" => &["pag", "pages", "Page", "", "page ", "rte2"],
        "name" => &["1ABC", "abc", "", "ABCDEF", "AB CD", "A-B", "A    ", "Ab", "A[", "9", "-"],
        "why" => &[
            "",
            "",
            "",
            "tracks",
            "tracks:",
            "son",
            "son:",
            "lock",
            "lock:-",
            "number:1",
            "numbers",
            "son1",
            "tracks:-",
            "Number",
            "--",
            "none",
            "nothing",
            "-:1",
            "room:1",
            "mail:1",
            "tracks:01",
            "tracks:1:1",
            ":1",
            "locks:1",
            "so:1",
        ],
        "due" | "interval" => &["", "--", "-1", "none", "00", "1-", "- ", "global"],
        "chain1" | "chain3" | "chain5" | "chain6" => {
            &[",", "1,", ",1", "1,,2", "1 ,2", "-", "01", "1;2", "a", "1,-", "1,02", "0x1", "+1"]
        }
        "held" => &[
            "",
            "0-0",
            "0:1",
            "0-0:",
            "-0:1",
            "0-:1",
            "0-0:-",
            "0-0:GLOBAL",
            "0-0:globals",
            "0-0-0:1",
            "0-0:1:1",
            "00-0:1",
            "0-00:1",
            "0-0:01",
            "0--0:1",
            "0:0-1",
            "0-0: 1",
            "-",
            "0-0:system",
            "0-0:free",
        ],
        "number" => &[
            "",
            "1",
            "1:1",
            "1:1:",
            ":1:-",
            "1::-",
            "1:1:global",
            "1:-:-",
            "1:GLOBAL:-",
            "1:1:-:",
            "01:1:-",
            "1:01:-",
            "1:1:01",
            "1:1:--",
            "1-1:-",
            "1:global:1:1",
            "1:1:-1",
            "1:1",
        ],
        _ => &["", "-", "global", "+1", "1 ", " 1", "1,1", "0x1", "1.0", "00", "01", "A", "1-1"],
    };
    let new = prng.pick(words).to_string();
    lines[at] = match prng.below(6) {
        0 => format!("{}={} ", name, old),
        1 => format!("{}={}{}", name, old, prng.pick(&[":", ",", "-", "0", ":1", ",1"])),
        _ => format!("{}={}", name, new),
    };
}

/// `programs` says another number than there are records.
pub fn miscounted(prng: &mut Prng, lines: &mut Lines) {
    if let Some(at) = having(lines, "programs").first() {
        let count: u64 = field(&lines[*at]).parse().unwrap_or(0);
        let fewer = count.saturating_sub(1);
        let wild = prng.pick(&[33, 256, 65_536, 1 << 32, 9_999_999_999_999]);
        let new = prng.pick(&[count + 1, fewer, 0, wild, count + 256]);
        lines[*at] = format!("programs={}", new);
    }
}
