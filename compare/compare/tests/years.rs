//! Start years and the ends of years: what of it comes up, and that the time is that of a plain count.

use comparer::corners::of_years;
use comparer::marks;
use comparer::script::{generate, generate_within};
use comparer::turns::{self, IN_FIXED, ROWS};
use comparer::years::{days, first_tick, turns, DAY};
use comparer::{CI_LINES, CI_SEEDS};
use engine::calendar::date;
use engine::sheet::lines;
use engine::tables::CEILING;
use engine::{parse, sheet, Engine, Request, Value};

/// The two ways to count years come to the same at each turn, from every start year.
#[test]
fn turns_of_all_years() {
    let mut count = 0;
    for start in 1970..=2099 {
        let turns = turns(start);
        for (year, first) in &turns {
            assert_eq!(*first, first_tick(start, *year));
            assert_eq!(date(start, first / DAY), (*year, 1));
            assert_eq!(date(start, first / DAY - 1), (year - 1, days(year - 1)));
        }
        count += turns.len();
        assert!(turns.last().map_or(false, |(_, first)| CEILING - first < 366 * DAY));
    }
    assert_eq!(count, 130 * 316);
}

/// Each row comes up, in scripts and in fixed inputs.
#[test]
fn turns_come_up() {
    let count = marks::Count::of_scripts(CI_SEEDS, CI_LINES).turns;
    let fixed = turns::Count::of_input(&of_years());
    let text = count.print(["scripts", "fixed inputs"], &fixed);
    println!("{}", text);
    for row in ROWS {
        assert!(count.of(row) >= 20 || IN_FIXED.contains(&row), "{}: {}", row, text);
        assert!(fixed.of(row) >= 2, "{}: {}", row, text);
    }
    assert_eq!(text.lines().count(), ROWS.len() + 1);
}

/// What is asked in the fixed input of years is answered by the plain count.
#[test]
fn times_of_the_fixed_input() {
    let input = comparer::nights::years();
    let mut engine = Engine::smallest();
    let (mut times, mut last) = (0, 0);
    for line in lines(&input) {
        let answer = engine.line(line, &mut [0; 8_704]);
        if let Value::Time([year, day, hour, minute, second, hundredth]) = answer.value {
            let ticks = ((hour * 60 + minute) * 60 + second) * 100 + hundredth;
            let told = first_tick(engine.year, year) + (day - 1) * DAY + ticks;
            assert_eq!(told, engine.clock);
            assert!((1..=days(year)).contains(&day) && hour < 24 && minute < 60 && second < 60);
            times += 1;
            last = last.max(year);
        }
    }
    assert!(times > 3_000, "{}", times);
    assert_eq!(last, 2415);
    assert!(String::from_utf8_lossy(&sheet(&input)).contains("value=2415.325.17.46.40.0\n"));
}

/// Scripts for definitions have start years as others have them, and no year passes in them.
#[test]
fn years_for_the_definitions() {
    let (mut with, mut refused) = (0, 0);
    for seed in 1..301 {
        let script = generate_within(seed, 150, 30);
        let mut engine = Engine::smallest();
        for line in lines(&script) {
            let answer = engine.line(line, &mut [0; 8_704]);
            if let Some(Request::Fresh(_, _, _, Some(_))) = parse(line) {
                with += u64::from(answer.number == 0);
                refused += u64::from(answer.number == 3);
            }
            assert!(engine.clock < 30 * 150);
        }
    }
    assert!(with > 100 && refused > 20, "{} {}", with, refused);
}

/// A script in twelve ends years.
#[test]
fn scripts_that_end_years() {
    let ends = |seed: &u64| {
        let mut engine = Engine::smallest();
        lines(&generate(*seed, CI_LINES)).iter().any(|line| {
            let answer = engine.line(line, &mut [0; 8_704]);
            matches!(answer.value, Value::Time([year, ..]) if year > engine.year)
        })
    };
    let count = CI_SEEDS.filter(ends).count();
    assert!(count > 40, "{}", count);
}
