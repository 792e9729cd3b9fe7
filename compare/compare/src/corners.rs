//! Fixed inputs, run after the scripts: how input can begin and end, every byte, every length, very
//! long lines, bounds, every way to wake, many ticks at once, the ends of years, and a long time.

use crate::{forms, knots, nights};

/// Inputs by what they are about, the quick ones first. Each is run by itself, from the tables that
/// `sheet` starts with.
pub fn named() -> Vec<(&'static str, Vec<u8>)> {
    let mut inputs: Vec<(&str, Vec<u8>)> =
        STARTS.iter().map(|text| ("how input begins and ends", text.as_bytes().to_vec())).collect();
    inputs.push(("every byte as a line and in a name", every_byte()));
    inputs.push(("very long lines", long_lines()));
    inputs.push(("numbers at their bounds", forms::bounds()));
    inputs.push(("every way to wake", knots::every_waking()));
    inputs.extend(of_ticks());
    inputs.push((FIELDS, forms::every_field()));
    inputs.push(("lines of every length", forms::every_length()));
    inputs.push((REPLACED, forms::bytes_replaced()));
    inputs.push((INSERTED, forms::bytes_inserted()));
    inputs.push(("two minutes of ticks", two_minutes()));
    inputs
}

/// Those with many ticks at once.
pub fn of_ticks() -> [(&'static str, Vec<u8>); 4] {
    [
        ("many ticks, every moment", nights::every_moment()),
        ("many ticks, days and years", nights::calendar()),
        ("many ticks, up to the ceiling", nights::ceiling()),
        ("years, up to the ceiling", nights::years()),
    ]
}

/// Those with start years and times, one after another.
pub fn of_years() -> Vec<u8> {
    let about = [forms::bounds(), nights::calendar(), nights::ceiling(), nights::years()];
    about.join(&b'\n')
}

const FIELDS: &str = "fields of every length";
const REPLACED: &str = "every byte at every place";
const INSERTED: &str = "every byte between any two";

/// The short ones among them, for one who runs each many times.
pub fn corners() -> Vec<Vec<u8>> {
    let short = |about: &str| ![FIELDS, REPLACED, INSERTED].contains(&about);
    named().into_iter().filter(|(about, _)| short(about)).map(|(_, input)| input).collect()
}

const STARTS: [&str; 14] = [
    "",
    "\n",
    "\n\n",
    "PAGE",
    "PAGE\n",
    "\nPAGE\n\n",
    "FRESH,0,0,0\nPAGE\n",
    "LOAD,A,1\nRU,A\nEXEC,15,1,0\nEXEC,4,1,0\nPAGE\nEXEC,11",
    "RN,ALLOC,L,0\nLOAD,L,0\nRU,L\nRN,ALLOC,L,0\nFRESH,257,0,0\nPAGE\n",
    "FRESH,4,1,1\nLOAD,WHZAT,10\nRU,WHZAT\nEXEC,4,2,0\nPAGE\n",
    "FRESH,1,0,0,1976\nPAGE\nFRESH,1,0,0\nPAGE\n",
    "FRESH,4,1,1,1975\nPAGE\nFRESH,4,1,1\nPAGE",
    "FRESH,0,0,0,2000\nPAGE\nLOAD,A,1\nRU,A\nEXEC,11\nFRESH,1,0,0,1969\nPAGE",
    "FRESH,2,0,0,2000\nLOAD,A,1\nFRESH,0,0,0\nFRESH,1,0,0,2100\nRU,A\nEXEC,11\nPAGE\n",
];

/// Every byte as a line of its own, and as the second byte of a name.
fn every_byte() -> Vec<u8> {
    let mut input = Vec::new();
    for byte in 0..=255 {
        input.extend_from_slice(&[byte, b'\n']);
        input.extend_from_slice(&[b"LOAD,A", &[byte][..], b",1\n"].concat());
    }
    input.extend_from_slice(b"PAGE\n");
    input
}

/// Lines around the usual sizes of buffers; each ends like a line of its own.
fn long_lines() -> Vec<u8> {
    let mut input = Vec::new();
    for size in [72, 128, 256, 512, 1_024, 4_096, 5_000, 8_192, 65_536, 131_072] {
        for length in [size - 1, size, size + 1] {
            input.resize(input.len() + length, b'A');
            input.extend_from_slice(b"TICK\n");
        }
    }
    input.extend_from_slice(b"PAGE\n");
    input
}

/// Timers of every unit but hours run for two minutes of ticks; the programs end now and then, so
/// that they are found dormant and waiting.
fn two_minutes() -> Vec<u8> {
    let mut lines: Vec<String> = Vec::new();
    for name in ["A", "B", "C", "D", "E", "F"] {
        lines.push(format!("LOAD,{},10", name));
    }
    let timers = [
        "RU,F",
        "EXEC,12,E,1,50,7",
        "EXEC,12,D,2,1,1",
        "EXEC,12,C,3,1,1",
        "EXEC,12,B,2,0,60",
        "EXEC,12,A,2,30,30",
        "EXEC,12,F,1,4095,100",
    ];
    lines.extend(timers.iter().map(|line| line.to_string()));
    for tick in 1..=12_100 {
        lines.push(String::from("TICK"));
        if tick % 59 == 0 {
            lines.push(String::from("EXEC,11"));
            lines.push(String::from("EXEC,6"));
        }
        if tick % 1_000 == 0 {
            lines.push(String::from("PAGE"));
        }
    }
    lines.join("\n").into_bytes()
}

/// An hour of ticks, too long to be run more than once or twice: the time just before the hour and
/// after it, with timers of an hour that are due at it.
pub fn an_hour() -> Vec<u8> {
    const HOUR: u64 = 360_000;
    let mut lines = vec!["LOAD,A,10", "LOAD,B,10", "LOAD,C,10", "RU,A"];
    lines.extend(["EXEC,12,B,4,1,1", "EXEC,12,C,3,30,59", "EXEC,12,A,4,4095,4095"]);
    for tick in 1..=HOUR + 100 {
        lines.push("TICK");
        let minute_begins = tick % 6_000 <= 1 && tick % (5 * 6_000) <= 6_001;
        if minute_begins || (HOUR - 2..=HOUR + 2).contains(&tick) {
            lines.push("EXEC,11");
        }
        if tick == HOUR {
            lines.push("PAGE");
        }
    }
    lines.push("PAGE");
    lines.join("\n").into_bytes()
}
