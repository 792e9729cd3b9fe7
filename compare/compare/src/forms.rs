//! Fixed inputs made from the forms of a line: every byte at every place, fields and lines of every
//! length, and numbers at the bounds of their ranges.

/// Every form of a well-formed line, each accepted after `SETUP`.
pub const FORMS: [&str; 29] = [
    "FRESH,12,2,3",
    "FRESH,12,2,3,1976",
    "LOAD,NEW,10",
    "RU,C",
    "SS,AB",
    "GO,D",
    "PR,AB,11",
    "OF,AB,1",
    "OF,C,8",
    "TICK",
    "TICK,3",
    "EXEC,4,1,0",
    "EXEC,15,1,0",
    "EXEC,5,1,2",
    "EXEC,5,ALL",
    "EXEC,16,1,5",
    "EXEC,6",
    "EXEC,7",
    "EXEC,9,C",
    "EXEC,10,C",
    "EXEC,11",
    "EXEC,12,C,2,3,4",
    "RN,ALLOC,L,0",
    "RN,ALLOC,G,0",
    "RN,LOCK,1,0",
    "RN,LOCK,2,1",
    "RN,CLEAR,1",
    "RN,FREE,1",
    "PAGE",
];

/// AB runs, holds tracks 2 to 4 and locks number 1, C is dormant, D suspended; tracks 5 and 6 and
/// number 2 are global.
const SETUP: &str = "FRESH,12,2,3\nLOAD,AB,10\nLOAD,C,10\nLOAD,D,10\nRU,D\nSS,D\nRU,AB\n\
    EXEC,4,3,0\nEXEC,15,2,0\nRN,ALLOC,L,0\nRN,LOCK,1,0\nRN,ALLOC,G,0\n";

/// C is due at every second tick, and AB at the third and then never again.
const TIMERS: &str = "EXEC,12,C,1,2,2\nEXEC,12,AB,1,0,3\n";

/// Words that stand behind the first comma of a form.
const WORDS: [&str; 7] = ["ALL", "ALLOC", "LOCK", "CLEAR", "FREE", "L", "G"];

/// Digits of the longest number.
const LONGEST_NUMBER: usize = 10;
/// Letters of the longest name.
const LONGEST_NAME: usize = 5;

fn is_number(field: &str) -> bool {
    field.bytes().all(|b| b.is_ascii_digit())
}

fn put(input: &mut Vec<u8>, line: &[u8]) {
    input.extend_from_slice(line);
    input.push(b'\n');
}

/// A line on tables set up for it, and the page after it.
fn by_itself(input: &mut Vec<u8>, line: &[u8]) {
    set_up(input, line);
    put(input, line);
    put(input, b"PAGE");
}

fn set_up(input: &mut Vec<u8>, line: &[u8]) {
    input.extend_from_slice(SETUP.as_bytes());
    if line.starts_with(b"TICK") {
        input.extend_from_slice(TIMERS.as_bytes());
    }
}

/// A byte that well-formed lines have.
fn is_plain(byte: u8) -> bool {
    byte.is_ascii_uppercase() || byte.is_ascii_digit() || byte == b','
}

/// A line with this byte changed in it: by itself where it may be understood.
fn put_changed(input: &mut Vec<u8>, byte: u8, line: &[u8]) {
    if is_plain(byte) {
        by_itself(input, line);
    } else {
        put(input, line);
    }
}

/// Every byte in the stead of each byte of each form.
pub fn bytes_replaced() -> Vec<u8> {
    let mut input = Vec::new();
    for form in FORMS {
        for place in 0..form.len() {
            let mut line = form.as_bytes().to_vec();
            for byte in 0..=255 {
                line[place] = byte;
                put_changed(&mut input, byte, &line);
            }
        }
    }
    input
}

/// Every byte put before each byte of each form and behind it, and each byte dropped.
pub fn bytes_inserted() -> Vec<u8> {
    let mut input = Vec::new();
    for form in FORMS {
        for place in 0..=form.len() {
            let (front, back) = form.as_bytes().split_at(place);
            for byte in 0..=255 {
                put_changed(&mut input, byte, &[front, &[byte], back].concat());
            }
            if let Some((_, rest)) = back.split_first() {
                by_itself(&mut input, &[front, rest].concat());
            }
        }
    }
    input
}

/// Each form cut and stretched to every length from 1 to 100.
pub fn every_length() -> Vec<u8> {
    let mut input = Vec::new();
    for form in FORMS {
        set_up(&mut input, form.as_bytes());
        for length in 1..=100 {
            for filler in [b'0', b'1', b'A', b',', b' '] {
                let mut line = form.as_bytes().to_vec();
                line.resize(length, filler);
                put(&mut input, &line);
            }
        }
        put(&mut input, b"PAGE");
    }
    input
}

/// What may stand for a number: of every length up to one digit too many, and those that become
/// another number in 32 or 64 bits, the old one among them.
fn numbers_for(old: &str) -> Vec<String> {
    let value: u128 = old.parse().unwrap_or(0);
    let mut numbers: Vec<String> = Vec::new();
    for length in 1..=LONGEST_NUMBER + 2 {
        numbers.push("9".repeat(length));
        numbers.push(format!("{:0<1$}", 1, length));
        numbers.push(format!("{:0>1$}", value, length));
    }
    for bits in [8, 15, 16, 31, 32, 33, 63, 64] {
        for more in [0, 1, value] {
            numbers.push(((1 << bits) + more).to_string());
        }
        numbers.push(((1_u128 << bits) - 1).to_string());
    }
    numbers
}

/// Each field of each form by itself at its longest and around it; then all fields of a line.
pub fn every_field() -> Vec<u8> {
    let mut input = Vec::new();
    for form in FORMS {
        let fields: Vec<&str> = form.split(',').collect();
        for place in 1..fields.len() {
            let others = if is_number(fields[place]) {
                numbers_for(fields[place])
            } else if WORDS.contains(&fields[place]) {
                Vec::new()
            } else {
                (1..=LONGEST_NAME + 2).map(|length| "ABCDEFG"[..length].to_string()).collect()
            };
            for other in &others {
                let mut changed = fields.clone();
                changed[place] = other;
                by_itself(&mut input, changed.join(",").as_bytes());
            }
        }
    }
    input.extend(lengths_together());
    input
}

/// The forms with three numbers and more, at every length of every field; the longest line has 49
/// bytes.
fn lengths_together() -> Vec<u8> {
    let mut input = SETUP.as_bytes().to_vec();
    let digits = |length: usize| format!("{:1<1$}", 4, length);
    let lengths = 1..=LONGEST_NUMBER + 1;
    for one in lengths.clone() {
        for two in lengths.clone() {
            for three in lengths.clone() {
                let numbers = format!("{},{},{}", digits(one), digits(two), digits(three));
                for name in ["C", "ABCDE", "ABCDEF"] {
                    put(&mut input, format!("EXEC,12,{},{}", name, numbers).as_bytes());
                }
                // Refused for its size or for its form: the tables stay.
                put(&mut input, format!("FRESH,999{}", numbers).as_bytes());
                for year in [1, 4, LONGEST_NUMBER, LONGEST_NUMBER + 1] {
                    put(&mut input, format!("FRESH,{},{}", numbers, digits(year)).as_bytes());
                }
            }
        }
    }
    put(&mut input, b"PAGE");
    input
}

/// Years, those that are others in fewer bits or with fewer digits among them.
const YEARS: [u64; 27] = [
    0,
    1,
    70,
    75,
    99,
    1_900,
    1_968,
    1_969,
    1_970,
    1_971,
    1_974,
    1_975,
    1_976,
    1_977,
    2_000,
    2_096,
    2_098,
    2_099,
    2_100,
    2_101,
    2_400,
    9_999,
    19_760,
    65_536 + 1_976,
    4_294_967_295,
    4_294_967_296 + 1_976,
    9_999_999_999,
];

/// Fourth fields that are no numbers, and lines with a fifth.
const NO_YEARS: [&str; 13] = [
    "",
    ",",
    ",,",
    ",1976",
    "1976,",
    "1976,0",
    "1976,1976",
    "01976",
    "0001976",
    "+1976",
    "-1",
    "A",
    "1976A",
];

const NUMBERS_OF_TICKS: [u64; 20] = [
    0,
    1,
    2,
    3,
    4,
    5,
    255,
    256,
    257,
    999_999,
    99_999_999,
    100_000_000,
    100_000_001,
    999_999_999,
    1_000_000_000,
    4_294_967_295,
    4_294_967_296,
    4_294_967_297,
    4_294_967_299,
    9_999_999_999,
];

/// Numbers at the bounds of their ranges, one line at a time.
pub fn bounds() -> Vec<u8> {
    let mut input = Vec::new();
    for t in [0, 1, 2, 255, 256, 257_u64] {
        for s in [0, 1, t.saturating_sub(1), t, t + 1] {
            for r in [0, 1, 15, 16, 17] {
                by_itself(&mut input, format!("FRESH,{},{},{}", t, s, r).as_bytes());
            }
        }
    }
    for year in YEARS {
        // With sizes that are right, and with one that is not.
        for sizes in ["12,2,3", "1,0,0", "256,256,16", "0,0,0", "257,0,0", "4,5,0", "4,0,17"] {
            by_itself(&mut input, format!("FRESH,{},{}", sizes, year).as_bytes());
        }
        // On tables that have a year of their own.
        put(&mut input, b"FRESH,12,2,3,2001");
        put(&mut input, format!("FRESH,12,2,3,{}", year).as_bytes());
        input.extend_from_slice(b"PAGE\nFRESH,12,2,3\nPAGE\n");
    }
    for field in NO_YEARS {
        by_itself(&mut input, format!("FRESH,12,2,3,{}", field).as_bytes());
    }
    for priority in [0, 1, 32_766, 32_767, 32_768] {
        for line in ["LOAD,NEW", "PR,AB", "PR,C", "PR,D"] {
            by_itself(&mut input, format!("{},{}", line, priority).as_bytes());
        }
    }
    for n in NUMBERS_OF_TICKS {
        by_itself(&mut input, format!("TICK,{}", n).as_bytes());
    }
    for resolution in 0..=5 {
        for multiple in [0, 1, 2, 4_094, 4_095, 4_096] {
            for offset in [0, 1, 2, 4_094, 4_095, 4_096] {
                let line = format!("EXEC,12,C,{},{},{}", resolution, multiple, offset);
                by_itself(&mut input, line.as_bytes());
            }
        }
    }
    for one in 0..=13 {
        for two in 0..=13 {
            for exec in [5, 16] {
                by_itself(&mut input, format!("EXEC,{},{},{}", exec, one, two).as_bytes());
            }
            if two <= 2 {
                for line in ["EXEC,4", "EXEC,15", "RN,LOCK"] {
                    by_itself(&mut input, format!("{},{},{}", line, one, two).as_bytes());
                }
            }
        }
        for line in ["OF,AB", "OF,C", "RN,CLEAR", "RN,FREE", "RN,ALLOC,L", "RN,ALLOC,G"] {
            by_itself(&mut input, format!("{},{}", line, one).as_bytes());
        }
    }
    input
}
