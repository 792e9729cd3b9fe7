//! Start years for FRESH, right and wrong ones, and the ends of years: request (iv). Years are counted
//! here one after another, which is not how the engine counts them.

use crate::prng::Prng;
use crate::profile::{sizes, Profile};
use engine::tables::{CEILING, EARLIEST_YEAR, LATEST_YEAR, USUAL_YEAR};
use engine::ticks::MOST_TICKS;

pub const DAY: u64 = 8_640_000;

/// Days of a year, by the rule as it is said.
pub fn days(year: u64) -> u64 {
    let leap = year % 4 == 0 && (year % 100 != 0 || year % 400 == 0);
    if leap {
        366
    } else {
        365
    }
}

/// The first tick of a year, from a start year; it may lie above the ceiling.
pub fn first_tick(start: u64, year: u64) -> u64 {
    (start..year).map(days).sum::<u64>() * DAY
}

/// The first ticks of all years behind the start year, up to the ceiling.
pub fn turns(start: u64) -> Vec<(u64, u64)> {
    let mut turns = Vec::new();
    let mut first = 0;
    for year in start.. {
        first += days(year) * DAY;
        if first > CEILING {
            break;
        }
        turns.push((year + 1, first));
    }
    turns
}

/// A year that FRESH takes, often at a bound, a leap year, a century, or beside one of these.
pub fn allowed(prng: &mut Prng) -> u64 {
    let any = prng.between(EARLIEST_YEAR, LATEST_YEAR);
    let telling = [
        1970, 1970, 1971, 1972, 1974, 1975, 1975, 1976, 1976, 1977, 1980, 1996, 1999, 2000, 2000,
        2001, 2004, 2076, 2095, 2096, 2097, 2098, 2099, 2099, 2099, any, any, any,
    ];
    prng.pick(&telling)
}

/// One that it does not, those among them that are right ones in fewer bits or with fewer digits.
fn out_of_range(prng: &mut Prng) -> u64 {
    let right = allowed(prng);
    let telling = [
        0,
        0,
        1,
        70,
        75,
        99,
        1900,
        1968,
        1969,
        1969,
        1969,
        2100,
        2100,
        2100,
        2101,
        2400,
        9_999,
        65_536 + right,
        10_000 + right,
        (1 << 32) + right,
        4_294_967_295,
        9_999_999_999,
    ];
    prng.pick(&telling)
}

/// FRESH that is accepted, with a year or without one.
pub fn fresh(prng: &mut Prng) -> String {
    let (t, s, r) = sizes(prng);
    let year = if prng.chance(3, 5) { format!(",{}", allowed(prng)) } else { String::new() };
    format!("FRESH,{},{},{}{}", t, s, r, year)
}

/// FRESH that is refused for its fourth field or what is behind it.
pub fn refused(prng: &mut Prng) -> String {
    let (t, s, r) = sizes(prng);
    let sizes = format!("FRESH,{},{},{}", t, s, r);
    let (right, wrong) = (allowed(prng), out_of_range(prng));
    match prng.below(10) {
        0 => format!("{},", sizes),
        1 => format!("{},{},", sizes, right),
        2 => format!("{},{},{}", sizes, right, prng.pick(&[0, 1, right, wrong])),
        3 => {
            let field = prng.pick(&["-", "A", "+1976", "1976.", " 1976", "-1976", "L", "ALL"]);
            format!("{},{}", sizes, field)
        }
        4 => format!("{},0{}", sizes, right),
        // Refused for another number as well, or for that alone.
        5 => format!("FRESH,{},{},{},{}", 257 + t, s, r, prng.pick(&[right, wrong])),
        6 => format!("FRESH,{},{},17,{}", t, s, right),
        _ => format!("{},{}", sizes, wrong),
    }
}

/// Years that an opening begins with: close before a leap year, a common one, or a century.
const TELLING: [u64; 16] = [
    1970, 1971, 1972, 1975, 1975, 1976, 1976, 1999, 1999, 2000, 2000, 2096, 2098, 2099, 2099, 2099,
];

/// An opening in which years end, FRESH and all: one of these years, somebody who may ask for the
/// time, and the time around the end of one year, or of two.
pub fn ends_of_years(prng: &mut Prng, profile: &Profile) -> Vec<String> {
    let start = prng.pick(&TELLING);
    let mut lines = vec![format!("FRESH,{},{},{},{}", profile.t, profile.s, profile.r, start)];
    // The year is the usual one then, whatever it was.
    let start = if prng.chance(1, 8) {
        lines.push(format!("FRESH,{},{},{}", profile.t, profile.s, profile.r));
        USUAL_YEAR
    } else {
        start
    };
    let name = &profile.names[0];
    lines.push(format!("LOAD,{},{}", name, profile.priorities[0]));
    lines.push(format!("RU,{}", name));
    let years = if start % 4 == 3 { 2 } else { prng.pick(&[1, 1, 2]) };
    let mut clock = 0;
    for year in start + 1..=start + years {
        let turn = first_tick(start, year);
        // The last day as well, which is day 365 or 366; now and then a line passes the year's end.
        let passes = prng.chance(1, 3);
        for moment in [turn - DAY - 1, turn - DAY, turn - 1, turn, turn + DAY - 1] {
            let left_out = if moment < turn - 1 { prng.chance(1, 4) } else { passes };
            if left_out && moment <= turn {
                continue;
            }
            pass(&mut lines, &mut clock, moment);
            lines.push(String::from("EXEC,11"));
            if prng.chance(1, 6) {
                lines.push(String::from("PAGE"));
            }
        }
    }
    // No other year than that which FRESH was given stands on the page.
    lines.push(String::from("PAGE"));
    lines
}

/// Time up to a moment, in as few lines as that takes.
pub fn pass(lines: &mut Vec<String>, clock: &mut u64, moment: u64) {
    while *clock < moment {
        let n = MOST_TICKS.min(moment - *clock);
        lines.push(if n == 1 { String::from("TICK") } else { format!("TICK,{}", n) });
        *clock += n;
    }
}
