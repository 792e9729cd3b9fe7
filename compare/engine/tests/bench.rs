//! The outline's worked example and its bench sheet.

use engine::raw::{Raw, RawRecord, UNUSED};
use engine::{sheet, Answer, Engine, Value};

fn run(script: &str) -> String {
    String::from_utf8(sheet(script.as_bytes())).expect("sheet prints text")
}

/// What the last lines of a script print, without the page.
fn last(script: &str) -> String {
    run(script).lines().last().unwrap_or("").to_string()
}

fn chain1(script: &str) -> String {
    let printed = run(&format!("{}\nPAGE\n", script));
    printed.lines().find(|line| line.starts_with("chain1=")).expect("a page").to_string()
}

const EXAMPLE: &str = "FRESH,4,1,1\nLOAD,WHZAT,10\nRU,WHZAT\nEXEC,4,2,0\n";

#[test]
fn worked_example() {
    let expected = "answer=0,value=0\nanswer=0,value=1\nanswer=0,value=0\nanswer=0,value=1\n\
        page=rte2\nclock=0\ntracks=4\nsystem=1\nnumbers=1\nprograms=1\nid=1\nname=WHZAT\n\
        priority=10\nstate=1\nwhy=-\ndue=-\ninterval=-\nchain1=1\nchain3=\nchain5=\nchain6=\n\
        held=1-2:1\nend=page\n";
    assert_eq!(run(&format!("{}PAGE\n", EXAMPLE)), expected);
    assert_eq!(run(&format!("{}PAGE", EXAMPLE)), expected);
}

#[test]
fn case_1() {
    assert_eq!(last(&format!("{}EXEC,4,2,1", EXAMPLE)), "answer=8,value=0");
    assert_eq!(last(&format!("{}EXEC,4,2,1\nEXEC,4,1,1", EXAMPLE)), "answer=0,value=3");
}

#[test]
fn case_2() {
    let start = "FRESH,256,1,0\nLOAD,A,10\nRU,A\n";
    assert_eq!(last(&format!("{}EXEC,4,257,0", start)), "answer=3,value=0");
    assert_eq!(last(&format!("{}EXEC,4,256,1", start)), "answer=8,value=0");
}

#[test]
fn case_3() {
    let start = "LOAD,A,10\nLOAD,B,10\nRU,B\nRU,A";
    assert_eq!(chain1(start), "chain1=2,1");
    assert_eq!(chain1(&format!("{}\nPR,B,10", start)), "chain1=1,2");
}

#[test]
fn case_4() {
    assert_eq!(last("LOAD,A,10\nRU,A\nEXEC,9,A"), "answer=5,value=1");
}

#[test]
fn case_5() {
    let start = "LOAD,A,10\nLOAD,B,10\nRU,A\nEXEC,9,B\nOF,B,8";
    assert_eq!(chain1(start), "chain1=1");
    assert_eq!(last(&format!("{}\nLOAD,B,3", start)), "answer=0,value=2");
}

#[test]
fn case_6() {
    assert_eq!(last("LOAD,A,10\nEXEC,6"), "answer=2,value=0");
}

#[test]
fn case_7() {
    let start = "FRESH,4,1,1\nLOAD,A,10\nRU,A\n";
    assert_eq!(last(&format!("{}EXEC,5,0,1", start)), "answer=3,value=0");
    assert_eq!(last(&format!("{}EXEC,5,ALL", start)), "answer=0,value=0");
}

/// Tables with one scheduled program, at any clock.
fn at_clock(clock: u64) -> Engine {
    let (engine, _) = Engine::fresh(4, 1, 1, 1975);
    let mut raw = Raw::of(&engine);
    raw.records[0] = RawRecord { used: true, name: *b"A    ", state: 1, ..UNUSED };
    raw.links[1] = 1;
    raw.clock = clock;
    raw.engine().expect("sound tables")
}

fn time(engine: &Engine) -> [u64; 6] {
    match engine.exec11() {
        Ok(Answer { number: 0, value: Value::Time(parts) }) => parts,
        other => panic!("no time: {:?}", other),
    }
}

/// As request (iv) has it: the year comes first, and without a fourth field of FRESH it is 1975.
#[test]
fn case_8() {
    let mut engine = at_clock(8_639_999);
    assert_eq!(time(&engine), [1975, 1, 23, 59, 59, 99]);
    assert_eq!(engine.tick(), Ok(Answer::new(0, 0)));
    assert_eq!(time(&engine), [1975, 2, 0, 0, 0, 0]);
    assert_eq!(time(&at_clock(365 * 8_640_000 - 1)), [1975, 365, 23, 59, 59, 99]);
    assert_eq!(time(&at_clock(365 * 8_640_000)), [1976, 1, 0, 0, 0, 0]);
}

#[test]
fn case_9() {
    let start = "LOAD,A,10\nRU,A\n";
    assert_eq!(last(&format!("{}EXEC,12,A,3,0,7", start)), "answer=0,value=42000");
    assert_eq!(last(&format!("{}EXEC,12,A,3,0,1", start)), "answer=0,value=6000");
}

#[test]
fn case_10() {
    assert_eq!(last("LOAD,A,10\nPR,A,32767"), "answer=0,value=10");
    assert_eq!(last("LOAD,A,10\nPR,A,32768"), "answer=3,value=0");
    assert_eq!(last("LOAD,A,10\nPR,A,0"), "answer=3,value=0");
}

#[test]
fn case_11() {
    let engine = at_clock(0);
    let page = engine.page_bytes();
    let mut short = vec![7; page.len() - 1];
    assert_eq!(engine.page(&mut short), Err(Answer::new(12, page.len() as u64)));
    assert!(short.iter().all(|b| *b == 7));
    let mut long = vec![7; page.len() + 2];
    assert_eq!(engine.page(&mut long), Ok(Answer::new(0, page.len() as u64)));
    assert_eq!(&long[..page.len()], &page[..]);
    assert_eq!(&long[page.len()..], &[7, 7]);
}

#[test]
fn ceiling_of_the_clock() {
    let mut engine = at_clock(999_999_999_999);
    assert_eq!(engine.exec12(*b"A    ", 4, 4095, 4095), Ok(Answer::new(0, 1_001_474_199_999)));
    assert_eq!(engine.tick(), Ok(Answer::new(0, 0)));
    let before = engine.clone();
    assert_eq!(engine.tick(), Err(Answer::new(11, 0)));
    assert_eq!(engine, before);
    // A due may lie above the ceiling; the tables stay sound.
    assert!(Raw::of(&engine).sound());
}
