//! Request (iv): leap years. The time at the turns of years, from every start year; FRESH with a
//! year; the year on the page and in the tables.

mod common;
use common::{answers, last, page, run, script};
use engine::calendar::date;
use engine::raw::{Raw, RawRecord, UNUSED};
use engine::{read, Answer, Engine, Value};

const DAY: u64 = 8_640_000;
const CEILING: u64 = 1_000_000_000_000;

/// The rule once more, as it is said.
fn leap(year: u64) -> bool {
    match (year % 4, year % 100, year % 400) {
        (_, _, 0) => true,
        (_, 0, _) => false,
        (0, _, _) => true,
        _ => false,
    }
}

/// Tables with one scheduled program, of any start year and at any clock.
fn at(year: u64, clock: u64) -> Engine {
    let (engine, _) = Engine::fresh(4, 1, 1, year);
    let mut raw = Raw::of(&engine);
    raw.records[0] = RawRecord { used: true, name: *b"A    ", state: 1, ..UNUSED };
    raw.links[1] = 1;
    raw.clock = clock;
    raw.engine().expect("sound tables")
}

fn time(year: u64, clock: u64) -> [u64; 6] {
    match at(year, clock).exec11() {
        Ok(Answer { number: 0, value: Value::Time(parts) }) => parts,
        other => panic!("no time: {:?}", other),
    }
}

#[test]
fn the_figures_of_the_request() {
    assert_eq!(time(1976, 3_153_600_000), [1976, 366, 0, 0, 0, 0]);
    assert_eq!(time(1976, 3_162_240_000), [1977, 1, 0, 0, 0, 0]);
    assert_eq!(time(1976, 3_153_599_999), [1976, 365, 23, 59, 59, 99]);
    assert_eq!(time(1976, 3_162_239_999), [1976, 366, 23, 59, 59, 99]);
    assert_eq!(time(1975, 0), [1975, 1, 0, 0, 0, 0]);
    assert_eq!(time(1975, 8_639_999), [1975, 1, 23, 59, 59, 99]);
    assert_eq!(time(1975, 8_640_000), [1975, 2, 0, 0, 0, 0]);
    // On the console, by as many ticks.
    let ticks =
        |count: usize, rest: u64| format!("{} TICK,{}", "TICK,100000000 ".repeat(count), rest);
    let start = "FRESH,4,1,1,1976 LOAD,A,1 RU,A";
    let way = format!("{} {} EXEC,11", start, ticks(31, 53_600_000));
    assert_eq!(last(&way), "0,1976.366.0.0.0.0");
    let way = format!("{} {} EXEC,11", start, ticks(31, 62_240_000));
    assert_eq!(last(&way), "0,1977.1.0.0.0.0");
}

#[test]
fn centuries() {
    for (year, days) in [(2000, 366), (2100, 365), (2200, 365), (2300, 365), (2400, 366)] {
        for start in [1970, 1971, 1975, 1976, 1999, 2000, 2001, 2098, 2099] {
            if start > year {
                continue;
            }
            let past: u64 = (start..year).map(|year| 365 + u64::from(leap(year))).sum();
            let (first, next) = (past * DAY, (past + days) * DAY);
            if next > CEILING {
                continue;
            }
            assert_eq!(time(start, first), [year, 1, 0, 0, 0, 0], "from {}", start);
            let leap_day = (past + 59) * DAY;
            assert_eq!(time(start, leap_day), [year, 60, 0, 0, 0, 0]);
            assert_eq!(time(start, next - 1), [year, days, 23, 59, 59, 99], "from {}", start);
            assert_eq!(time(start, next), [year + 1, 1, 0, 0, 0, 0], "from {}", start);
        }
    }
    // 2400 is met from 2099, and from the years close before it.
    assert!((2400 - 2099) * 366 * DAY < CEILING);
}

#[test]
fn at_the_ceiling() {
    assert_eq!(time(2099, CEILING), [2415, 325, 17, 46, 40, 0]);
    assert_eq!(time(1975, CEILING), [2291, 324, 17, 46, 40, 0]);
    assert_eq!(time(1970, CEILING), [2286, 324, 17, 46, 40, 0]);
}

/// Every day from every start year to the ceiling, against one that is counted on day by day.
#[test]
fn every_day() {
    for start in 1970..=2099 {
        let (mut year, mut day) = (start, 1);
        for days in 0..=CEILING / DAY {
            assert_eq!(date(start, days), (year, day), "{} days from {}", days, start);
            day += 1;
            if day > 365 + u64::from(leap(year)) {
                (year, day) = (year + 1, 1);
            }
        }
        assert!(year >= 2286, "{}", year);
    }
}

/// The first and the last tick of each year from 1970 to 2415.
#[test]
fn every_year() {
    let mut first = 0;
    for year in 1970..2287 {
        let next = first + (365 + u64::from(leap(year))) * DAY;
        assert_eq!(time(1970, first), [year, 1, 0, 0, 0, 0]);
        if next <= CEILING {
            let last = if leap(year) { 366 } else { 365 };
            assert_eq!(time(1970, next - 1), [year, last, 23, 59, 59, 99]);
        }
        first = next;
    }
    let mut first = 0;
    for year in 2099..=2415 {
        assert_eq!(time(2099, first), [year, 1, 0, 0, 0, 0]);
        first += (365 + u64::from(leap(year))) * DAY;
    }
    assert!(first > CEILING);
}

#[test]
fn fresh_with_a_year() {
    for year in 1970..=2099 {
        let (engine, outcome) = Engine::fresh(4, 1, 1, year);
        assert_eq!((engine.year, outcome), (year, Ok(Answer::new(0, 0))));
        assert!(Raw::of(&engine).sound());
    }
    for year in [0, 1, 75, 1969, 2100, 2415, 1975 + (1 << 16), 1975 + (1 << 32), u64::MAX] {
        let (engine, outcome) = Engine::fresh(4, 1, 1, year);
        assert_eq!((engine, outcome), (Engine::smallest(), Err(Answer::new(3, 0))));
    }
    assert_eq!(Engine::fresh(4, 1, 1, 1975).0.year, 1975);
    assert_eq!(Engine::smallest().year, 1975);
    // A refused one with another year has the usual one.
    assert_eq!(Engine::fresh(0, 0, 0, 2000).0, Engine::smallest());
}

#[test]
fn fresh_lines() {
    let asked = "FRESH,4,1,1,1970 FRESH,4,1,1,2099 FRESH,4,1,1 FRESH,4,1,1,1975 FRESH,4,1,1,1969 \
                 FRESH,4,1,1,2100 FRESH,4,1,1,0 FRESH,4,1,1, FRESH,4,1,1,1976,0 FRESH,4,1,1,01976 \
                 FRESH,4,1,1,9999999999 FRESH,4,1,1,12345678901 FRESH,0,1,1,1976 FRESH,4,1,17,2000";
    let expected = "0,0 0,0 0,0 0,0 3,0 3,0 3,0 13,0 13,0 13,0 3,0 13,0 3,0 3,0";
    assert_eq!(answers(asked), expected);
    // What is refused keeps the tables, with their year.
    let start = "FRESH,4,1,1,2000 LOAD,A,10 FRESH,4,1,1,1969 FRESH,4,1,1, FRESH,9,9,17,1976";
    assert_eq!(page(start, "year"), ["2000"]);
    assert_eq!(page(start, "name"), ["A"]);
    // Without a year it is 1975, whatever it was.
    assert!(page(&format!("{} FRESH,4,1,1", start), "year").is_empty());
    let [without, with] = ["FRESH,4,1,1 PAGE", "FRESH,4,1,1,1975 PAGE"].map(|it| run(&script(it)));
    assert_eq!(without, with);
    let four = Engine::fresh(4, 1, 1, 1975).0;
    let mut engine = Engine::smallest();
    engine.line(b"FRESH,4,1,1", &mut []);
    assert_eq!(engine, four);
    engine.line(b"FRESH,4,1,1,1975", &mut []);
    assert_eq!(engine, four);
}

/// The year on the page is the start year, whatever the clock.
#[test]
fn the_line_of_the_year() {
    let printed = run(&script("FRESH,4,1,1,1976 PAGE"));
    assert!(printed.starts_with("answer=0,value=0\npage=rte2\nclock=0\nyear=1976\ntracks=4\n"));
    for clock in [0, 3_162_240_000, CEILING] {
        let text = String::from_utf8(at(2099, clock).page_bytes()).expect("a page is text");
        assert!(text.contains(&format!("\nclock={}\nyear=2099\ntracks=", clock)), "{}", text);
        let text = String::from_utf8(at(1975, clock).page_bytes()).expect("a page is text");
        assert!(!text.contains("year"), "{}", text);
    }
}

/// The page of these tables, with other lines between clock and tracks.
fn with(lines: &str) -> Vec<u8> {
    let text = String::from_utf8(at(1975, 5).page_bytes()).expect("a page is text");
    text.replace("tracks=4", &format!("{}tracks=4", lines)).into_bytes()
}

#[test]
fn the_year_is_read() {
    for year in 1970..=2099 {
        for clock in [0, 5, CEILING] {
            let engine = at(year, clock);
            let raw = Raw::of(&engine);
            assert_eq!(read(&engine.page_bytes()), (raw, Answer::new(0, 0)), "{}", year);
        }
    }
    for year in [1970, 1974, 1976, 2000, 2099] {
        let (raw, answer) = read(&with(&format!("year={}\n", year)));
        assert_eq!((raw, answer), (Raw::of(&at(year, 5)), Answer::new(0, 0)));
    }
    assert_eq!(read(&with("")).0.year, 1975);
}

#[test]
fn years_that_are_refused() {
    let smallest = Raw::of(&Engine::smallest());
    let told = |lines: &str| {
        let (raw, answer) = read(&with(lines));
        assert_eq!((&raw, answer.number), (&smallest, 15), "{:?}", lines);
        answer.value
    };
    for year in ["1975", "0", "1969", "2100", "75", "9999999999999", "1000000001976", "67512"] {
        assert_eq!(told(&format!("year={}\n", year)), Value::Number(0), "{}", year);
    }
    // The third line, unless the first of two is a year.
    for line in ["year=\n", "year=01976\n", "year=-\n", "year=+1976\n", "year=19760000000000\n"] {
        assert_eq!(told(line), Value::Number(3), "{}", line);
    }
    for line in ["Year=1976\n", "year 1976\n", "year=1976 \n", "year=1976\r\n", "years=1976\n"] {
        assert_eq!(told(line), Value::Number(3), "{}", line);
    }
    assert_eq!(told("year=1976\nyear=1976\n"), Value::Number(4));
    assert_eq!(told("year=1975\nyear=1976\n"), Value::Number(4));
    assert_eq!(told("year=1976\nclock=5\n"), Value::Number(4));
    // What is well formed and cannot be is told after what is not well formed.
    assert_eq!(told("year=1975\ntracks=04\n"), Value::Number(4));
}

/// Nowhere but right behind the clock.
#[test]
fn the_place_of_the_line() {
    let page = at(1976, 5).page_bytes();
    let text = String::from_utf8(page).expect("a page is text");
    let lines: Vec<&str> = text.lines().filter(|line| *line != "year=1976").collect();
    for place in 0..=lines.len() {
        let mut moved = lines.clone();
        moved.insert(place, "year=1976");
        let page = moved.join("\n") + "\n";
        let expected = if place == 2 { (0, 0) } else { (15, place as u64 + 1) };
        let answer = read(page.as_bytes()).1;
        assert_eq!(answer, Answer::new(expected.0, expected.1), "{}", page);
    }
}

#[test]
fn soundness_of_the_year() {
    for year in [0, 1, 1969, 2100, 65_535, 65_536 + 1975, u64::MAX] {
        let mut raw = Raw::of(&at(1975, 5));
        assert!(raw.sound());
        raw.year = year;
        assert!(!raw.sound(), "{}", year);
        for line in ["EXEC,11", "PAGE", "FRESH,1,0,0,1976", "TICK", "no line"] {
            let (after, answer) = raw.line(line.as_bytes(), &mut []);
            assert_eq!((after, answer), (raw.clone(), Answer::new(14, 0)));
        }
    }
    for year in 1970..=2099 {
        let mut raw = Raw::of(&at(1975, 5));
        raw.year = year;
        assert!(raw.sound(), "{}", year);
        assert_eq!(raw.engine().map(|engine| engine.year), Some(year));
    }
}

/// No call but FRESH changes the year.
#[test]
fn the_year_stays() {
    let way =
        "FRESH,4,1,1,2001 LOAD,A,10 RU,A TICK TICK,100000000 EXEC,4,1,0 EXEC,6 OF,A,8 EXEC,11";
    let mut engine = Engine::smallest();
    for line in way.split_whitespace() {
        engine.line(line.as_bytes(), &mut []);
        assert_eq!(engine.year, 2001, "{}", line);
    }
}
