//! The console line, the order of the tests, and where the input of `sheet` ends.

mod common;
use common::{answers, last, page, run};
use engine::sheet;

/// Every line is answered 13 once.
fn not_understood(line: &[u8]) {
    let mut input = line.to_vec();
    input.push(b'\n');
    let printed = sheet(&input);
    assert_eq!(printed, b"answer=13,value=0\n", "{:?}", String::from_utf8_lossy(line));
}

/// Parted by bars, since some of the lines have blanks.
const WRONG: &str =
    "|,|TICK,|,TICK|TICK,01|TICK,1,|TICK,1,2|TICK,A|TICK,-1|TICK,00|TICK, 1|TICK,12345678901|PAGE,|PAGES|tick|Tick| TICK|TICK |TICK\r|FRESH|FRESH,1,0\
    |FRESH,1,0,0,|FRESH,1,0,0,1976,|FRESH,1,0,0,1976,0|FRESH,1,0,0,01976|FRESH,1,0,0,+1976|FRESH,1,0,,1976\
    |FRESH,1,0,0,1976 |FRESH,1,0,0, 1976|FRESH,1,0,0,A|FRESH,1,0,0,-|FRESH,1,0,0,12345678901|FRESH,01,0,0|FRESH,1,00,0|FRESH,+1,0,0|FRESH,-1,0,0|FRESH,,0,0|FRESH,1, 0,0\
    |FRESH,12345678901,0,0|LOAD,A|LOAD,A,|LOAD,,1|LOAD,A,1,1|LOAD,1A,1|LOAD,a,1|LOAD,ABCDEF,1\
    |LOAD,A B,1|LOAD,A_B,1|LOAD,A,B|RU|RU,|RU,A,1|RU,A |SS|GO|PR,A|OF,A|OF,A,01|OF,A,-1|EXEC|EXEC,\
    |EXEC,4|EXEC,4,1|EXEC,4,1,0,0|EXEC,04,1,0|EXEC,1|EXEC,2|EXEC,3|EXEC,8|EXEC,13|EXEC,14|EXEC,17\
    |EXEC,4294967300,1,0|EXEC,5|EXEC,5,3|EXEC,5,ALL,1|EXEC,5,all|EXEC,16,ALL|EXEC,6,0|EXEC,7,\
    |EXEC,9|EXEC,9,1|EXEC,11,1|EXEC,12,A,1,0|EXEC,12,A,1,0,1,1|EXEC,15,ALL|RN|RN,ALLOC|RN,ALLOC,L\
    |RN,ALLOC,X,0|RN,ALLOC,l,0|RN,ALLOC,LG,0|RN,ALLOC,,0|RN,LOCK,1|RN,LOCK,1,0,0|RN,CLEAR\
    |RN,CLEAR,1,0|RN,FREE|RN,FREE,A|RN,L,0";

#[test]
fn lines_that_are_not_understood() {
    assert!(WRONG.split('|').count() > 80);
    for line in WRONG.split('|') {
        not_understood(line.as_bytes());
    }
}

#[test]
fn long_lines_are_answered_once() {
    for length in [71, 72, 73, 74, 144, 145, 5_000, 8_192, 70_000] {
        for filler in [b'A', b',', b'1', b' ', 0, 255] {
            not_understood(&vec![filler; length]);
            let mut line = vec![filler; length];
            line.extend_from_slice(b"TICK");
            not_understood(&line);
        }
    }
}

#[test]
fn every_byte_as_a_line() {
    for byte in (0..=255u8).filter(|byte| *byte != 10) {
        not_understood(&[byte]);
        not_understood(&[b"TICK", &[byte][..]].concat());
    }
}

#[test]
fn every_byte_in_a_name() {
    for byte in (0..=255u8).filter(|byte| *byte != 10) {
        let printed = sheet(&[b"LOAD,A", &[byte][..], b",1"].concat());
        let good = byte.is_ascii_uppercase() || byte.is_ascii_digit();
        let expected: &[u8] = if good { b"answer=0,value=1\n" } else { b"answer=13,value=0\n" };
        assert_eq!(printed, expected, "byte {}", byte);
    }
}

#[test]
fn numbers_out_of_range_are_3() {
    let start = "FRESH,4,1,2 LOAD,A,10 RU,A";
    let lines = [
        "FRESH,9999999999,0,0",
        "FRESH,4,1,2,0",
        "FRESH,4,1,2,1969",
        "FRESH,4,1,2,2100",
        "FRESH,4,1,2,9999999999",
        "FRESH,257,1,2,1976",
        "LOAD,B,32768",
        "LOAD,B,9999999999",
        "TICK,0",
        "TICK,100000001",
        "TICK,4294967297",
        "TICK,9999999999",
        "PR,A,0",
        "PR,A,32768",
        "OF,A,0",
        "OF,A,2",
        "OF,A,9",
        "EXEC,4,0,0",
        "EXEC,4,5,0",
        "EXEC,4,1,2",
        "EXEC,15,0,1",
        "EXEC,15,5,1",
        "EXEC,5,0,1",
        "EXEC,5,1,4",
        "EXEC,5,5,0",
        "EXEC,16,0,0",
        "EXEC,16,1,4",
        "EXEC,12,A,0,0,1",
        "EXEC,12,A,5,0,1",
        "EXEC,12,A,1,4096,1",
        "EXEC,12,A,1,0,0",
        "EXEC,12,A,1,0,4096",
        "RN,ALLOC,L,2",
        "RN,LOCK,0,0",
        "RN,LOCK,3,0",
        "RN,LOCK,1,2",
        "RN,CLEAR,0",
        "RN,CLEAR,3",
        "RN,FREE,0",
        "RN,FREE,3",
    ];
    for line in lines {
        assert_eq!(last(&format!("{} {}", start, line)), "3,0", "{}", line);
    }
}

#[test]
fn tests_run_in_their_order() {
    // 3 before 4 and 6
    let start = "LOAD,A,10 RU,A";
    for line in ["PR,NOSUC,0", "OF,NOSUC,2", "LOAD,A,32768", "EXEC,12,NOSUC,0,0,1"] {
        assert_eq!(last(&format!("{} {}", start, line)), "3,0", "{}", line);
    }
    assert_eq!(answers("RU,A SS,A GO,A PR,A,1 OF,A,1"), "4,0 4,0 4,0 4,0 4,0");
    assert_eq!(last(&format!("{} EXEC,9,B", start)), "4,0");
    // 6 before 7
    let full: Vec<String> = (1..=32).map(|k| format!("LOAD,P{},10", k)).collect();
    assert_eq!(last(&format!("{} LOAD,P7,10", full.join(" "))), "6,0");
    assert_eq!(last(&format!("{} LOAD,Q,10", full.join(" "))), "7,0");
    assert_eq!(last(&format!("{} LOAD,Q,32768", full.join(" "))), "3,0");
    // 10 before 9, 3 before 9
    assert_eq!(last("FRESH,4,1,1 LOAD,A,1 RU,A RN,FREE,1"), "10,0");
    assert_eq!(last("FRESH,4,1,1 LOAD,A,1 RU,A EXEC,5,1,4"), "3,0");
    assert_eq!(last("FRESH,4,1,1 LOAD,A,1 RU,A EXEC,5,1,0"), "9,0");
    assert_eq!(last("FRESH,4,1,1 LOAD,A,1 RU,A EXEC,16,1,3"), "9,0");
}

#[test]
fn names_may_look_like_words() {
    let start =
        "LOAD,ALL,5 LOAD,GO,5 LOAD,RN,5 LOAD,L,5 LOAD,G,5 RU,ALL EXEC,10,GO EXEC,9,RN GO,GO";
    assert_eq!(answers(start), "0,1 0,2 0,3 0,4 0,5 0,0 0,2 1,3 5,1");
    assert_eq!(page(start, "name"), ["ALL", "GO", "RN", "L", "G"]);
}

#[test]
fn where_the_input_ends() {
    let one = "answer=13,value=0\n";
    assert_eq!(run(""), "");
    assert_eq!(run("\n"), one);
    assert_eq!(run("\n\n"), [one, one].concat());
    assert_eq!(run("TICK"), "answer=0,value=0\n");
    assert_eq!(run("TICK\n"), "answer=0,value=0\n");
    assert_eq!(run("TICK\n\n"), ["answer=0,value=0\n", one].concat());
}

#[test]
fn smallest_tables_before_any_fresh() {
    let page = "page=rte2\nclock=0\ntracks=1\nsystem=0\nnumbers=0\nprograms=0\n\
        chain1=\nchain3=\nchain5=\nchain6=\nend=page\n";
    assert_eq!(run("PAGE"), page);
    assert_eq!(run("FRESH,0,0,0\nPAGE\n"), ["answer=3,value=0\n", page].concat());
}

#[test]
fn a_long_sheet_is_quick() {
    let script = "FRESH,256,0,16\nLOAD,A,1\nRU,A\nEXEC,4,7,1\nEXEC,5,ALL\nEXEC,11\nTICK\nOF,A,8\n"
        .repeat(12_500);
    let start = std::time::Instant::now();
    let printed = sheet(script.as_bytes());
    assert_eq!(printed.iter().filter(|b| **b == 10).count(), 100_000);
    assert!(start.elapsed().as_secs() < 10);
}
