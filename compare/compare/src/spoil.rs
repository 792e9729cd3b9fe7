//! Lines that are nearly right: numbers at the edge of their range, and every way in which a line
//! can fail to be understood.

use crate::prng::Prng;
use engine::Engine;

/// One number of a good line becomes another, well formed but often out of range.
pub fn edge(prng: &mut Prng, engine: &Engine, line: &str) -> Vec<u8> {
    let near = [
        0,
        1,
        2,
        3,
        4,
        5,
        7,
        9,
        engine.t(),
        engine.t() + 1,
        engine.r(),
        engine.r() + 1,
        256,
        257,
        1_969,
        1_970,
        2_099,
        2_100,
        4_095,
        4_096,
        32_767,
        32_768,
        65_537,
        4_294_967_295,
        4_294_967_296,
        4_294_967_297,
        9_999_999_999,
    ];
    if prng.chance(1, 12) {
        return widest(prng, line);
    }
    let number = prng.pick(&near);
    // Far off, but the old number to whoever keeps 32 bits of it.
    let turned = prng.chance(1, 8);
    change_number(prng, line, |old| {
        let new = if turned { old + (1 << 32) } else { number };
        new.to_string()
    })
}

/// A random number field of the line, rewritten; the line itself if it has none.
fn change_number(prng: &mut Prng, line: &str, rewrite: impl Fn(u64) -> String) -> Vec<u8> {
    let mut fields: Vec<String> = line.split(',').map(String::from).collect();
    let numbers: Vec<usize> =
        (0..fields.len()).filter(|place| fields[*place].parse::<u64>().is_ok()).collect();
    if !numbers.is_empty() {
        let place = prng.pick(&numbers);
        fields[place] = rewrite(fields[place].parse().unwrap_or(0));
    }
    fields.join(",").into_bytes()
}

/// Every number of a good line, but that of an EXEC, becomes one of ten digits.
fn widest(prng: &mut Prng, line: &str) -> Vec<u8> {
    let fields = line.split(',').enumerate().map(|(place, field)| {
        let exec_number = place == 1 && line.starts_with("EXEC,");
        if exec_number || field.parse::<u64>().is_err() {
            field.to_string()
        } else {
            prng.between(1_000_000_000, 9_999_999_999).to_string()
        }
    });
    fields.collect::<Vec<_>>().join(",").into_bytes()
}

/// A line that is mostly not understood, made from a good one.
pub fn spoil(prng: &mut Prng, line: &str) -> Vec<u8> {
    match prng.below(16) {
        0 => line.to_ascii_lowercase().into_bytes(),
        1 => change_number(prng, line, |old| format!("0{}", old)),
        2 => change_number(prng, line, |old| format!("{:011}", old)),
        3 => change_number(prng, line, |old| format!("{}{:010}", old % 9 + 1, old)),
        4 => {
            let bad = prng.pick(&["", "-1", "+1", "1.", "0x1", "A", "1 ", "00", "12345678901"]);
            change_number(prng, line, |_| bad.to_string())
        }
        5 => fields_changed(prng, line),
        6 => format!("{}\r", line).into_bytes(),
        7 => byte_changed(prng, line),
        8 => blank_put(prng, line),
        9 => exec_unlisted(prng, line),
        10 => padded(prng, line),
        11 => Vec::new(),
        12 => vec![not_newline(prng)],
        13 => any_bytes(prng),
        14 => name_changed(prng),
        _ => word_changed(prng, line),
    }
}

/// Any byte but 10, which would end the line.
fn not_newline(prng: &mut Prng) -> u8 {
    let byte = prng.below(255) as u8;
    if byte >= 10 {
        byte + 1
    } else {
        byte
    }
}

fn fields_changed(prng: &mut Prng, line: &str) -> Vec<u8> {
    let mut fields: Vec<&str> = line.split(',').collect();
    let place = prng.below(fields.len() as u64) as usize;
    match prng.below(4) {
        0 => {
            fields.remove(place);
        }
        1 => fields.insert(place, prng.pick(&["", "1", "0", "A", "ALL", "L"])),
        2 => fields.push(prng.pick(&["", "1", "0", "A", "ALL", "G"])),
        _ => fields[place] = "",
    }
    fields.join(",").into_bytes()
}

/// One byte of the line replaced, doubled, dropped or added: every byte value comes here.
fn byte_changed(prng: &mut Prng, line: &str) -> Vec<u8> {
    let mut bytes = line.as_bytes().to_vec();
    let place = prng.below(bytes.len() as u64) as usize;
    let any = not_newline(prng);
    // The bytes beside digits and capitals among them.
    let beside = prng.pick(b"/:@[");
    let byte = prng.pick(&[0, 9, 11, 13, 32, 127, 128, 200, 255, beside, beside, any, any, any]);
    match prng.below(4) {
        0 => bytes[place] = byte,
        1 => bytes.insert(place, byte),
        2 => bytes.push(byte),
        _ => {
            bytes.remove(place);
        }
    }
    bytes
}

fn blank_put(prng: &mut Prng, line: &str) -> Vec<u8> {
    match prng.below(4) {
        0 => format!(" {}", line),
        1 => format!("{} ", line),
        2 => line.replacen(',', ", ", 1),
        _ => line.replace(',', " "),
    }
    .into_bytes()
}

fn exec_unlisted(prng: &mut Prng, line: &str) -> Vec<u8> {
    let number = prng.pick(&[
        "0",
        "1",
        "2",
        "3",
        "8",
        "13",
        "14",
        "17",
        "04",
        "06",
        "105",
        "256",
        "4294967300",
        "4294967302",
        "4294967307",
        "4294967312",
        "9999999999",
        "ALL",
        "",
    ]);
    match line.strip_prefix("EXEC,") {
        Some(rest) => {
            let end = rest.find(',').unwrap_or(rest.len());
            format!("EXEC,{}{}", number, &rest[end..]).into_bytes()
        }
        None => format!("EXEC,{}", number).into_bytes(),
    }
}

/// The line stretched to 72, 73 or many bytes.
fn padded(prng: &mut Prng, line: &str) -> Vec<u8> {
    let length = prng.pick(&[71, 72, 72, 73, 73, 74, 144, 145, 5_000]);
    let filler = prng.pick(&[b'A', b'0', b'1', b',', b' ', 0, 255]);
    let mut bytes = line.as_bytes().to_vec();
    if prng.chance(1, 2) {
        bytes.push(b',');
    }
    bytes.resize(length, filler);
    // The tail of a long line may look like a line of its own.
    if length > 73 && prng.chance(1, 2) {
        let tail = prng.pick(&[72, 73, length - 4]).min(length - 4);
        bytes[tail..tail + 4].copy_from_slice(b"TICK");
        bytes.truncate(tail + 4);
    }
    bytes
}

fn any_bytes(prng: &mut Prng) -> Vec<u8> {
    let length = prng.between(1, 80);
    (0..length).map(|_| not_newline(prng)).collect()
}

fn name_changed(prng: &mut Prng) -> Vec<u8> {
    let name = prng.pick(&[
        "1A", "A B", "A_", "Aa", "a", "ABCDEF", "A ", " A", "", "A-B", "9", "ABCDE1", "A\0",
        "\u{c4}", "A.", "A@", "A[", "A/", "A:", "@", "[",
    ]);
    let form = prng.pick(&["LOAD,*,10", "RU,*", "PR,*,1", "OF,*,1", "EXEC,9,*", "EXEC,12,*,1,0,1"]);
    form.replace('*', name).into_bytes()
}

fn word_changed(prng: &mut Prng, line: &str) -> Vec<u8> {
    let rest = line.find(',').map_or("", |place| &line[place..]);
    let word = prng.pick(&[
        "RUN",
        "R",
        "ON",
        "TI",
        "TICKS",
        "PAGES",
        "FRESH",
        "EXEC",
        "EXEX",
        "RN",
        "RNX",
        "LOAD",
        "GO",
        "SS",
        "RU",
        "PAGE",
        "TICK",
        "RN,ALLOC",
        "RN,ALLOC,X",
        "RN,LOCK",
        "RN,CLEAR",
        "RN,FREED",
        "RN,L",
        "EXEC,16",
        "EXEC,5,ALL",
        "EXEC,16,ALL",
        "EXEC,5",
    ]);
    format!("{}{}", word, rest).into_bytes()
}
