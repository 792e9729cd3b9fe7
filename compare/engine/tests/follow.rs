//! The program `follow`, on pages and requests put by hand: what it prints, to the byte.

use engine::follow::{differences, USAGE};
use engine::sheet::print_line;
use engine::{follow, Engine, File};

/// The tables that these lines, with blanks between them, lead to, written as a page.
fn page(lines: &str) -> String {
    let mut engine = Engine::smallest();
    for line in lines.split_whitespace() {
        print_line(&mut engine, line.as_bytes());
    }
    String::from_utf8(engine.page_bytes()).expect("a page is text")
}

fn file<'a>(name: &'a str, text: &'a str) -> File<'a> {
    File { name: name.as_bytes(), bytes: text.as_bytes(), failed: None }
}

fn unread<'a>(name: &'a str, text: &'a str, error: i32) -> File<'a> {
    File { failed: Some(error), ..file(name, text) }
}

fn printed(files: &[File]) -> String {
    String::from_utf8(follow(files)).expect("it prints text here")
}

/// What is printed for the lines of a requests file that are keyed in from this page.
fn keyed(first: &str, requests: &str) -> String {
    let said = printed(&[file("a", first), file("b", requests), file("c", "")]);
    let said = said.strip_prefix("a: answer=0,value=0\n").expect("a page");
    said.strip_suffix("c: answer=15,value=1\n").expect("no page").to_string()
}

const EVENING: &str = "FRESH,8,2,1 LOAD,DRIVE,10 LOAD,LOG,50 RU,DRIVE EXEC,4,4,0 EXEC,10,LOG \
                       EXEC,7 EXEC,4,3,0 GO,DRIVE EXEC,5,2,2";

fn after_evening(line: &str) -> String {
    page(&format!("{} {}", EVENING, line))
}

#[test]
fn the_one_and_the_seven() {
    let first = page(EVENING);
    let next = after_evening("EXEC,12,LOG,3,0,7");
    let pages = |requests| {
        printed(&[file("FIRST.page", &first), file("R", requests), file("NEXT.page", &next)])
    };
    assert_eq!(
        pages("EXEC,12,LOG,3,0,7\n"),
        "FIRST.page: answer=0,value=0\n\
         1: EXEC,12,LOG,3,0,7 -> answer=0,value=42000\n\
         NEXT.page: answer=0,value=0\n\
         NEXT.page: follows\n"
    );
    assert_eq!(
        pages("EXEC,12,LOG,3,0,1"),
        "FIRST.page: answer=0,value=0\n\
         1: EXEC,12,LOG,3,0,1 -> answer=0,value=6000\n\
         NEXT.page: answer=0,value=0\n\
         NEXT.page: does not follow\n\
         line 19: due=42000 on the sheet, due=6000 by the requests\n"
    );
}

#[test]
fn one_page_alone() {
    let text = page(EVENING);
    assert_eq!(printed(&[file("x", &text)]), "x: answer=0,value=0\n");
    let short = text.trim_end();
    assert_eq!(printed(&[file("x", short)]), "x: answer=15,value=26\nend=page\n");
}

#[test]
fn other_counts_of_arguments() {
    let text = page("");
    let all = [file("x", &text); 6];
    for count in [0, 2, 4, 6] {
        assert_eq!(follow(&all[..count]), USAGE);
    }
    assert_eq!(USAGE, b"usage: follow FIRST.page [REQUESTS NEXT.page ...]\n");
}

#[test]
fn pages_that_are_none() {
    let text = page("FRESH,8,2,1 LOAD,A,10");
    let other = |old: &str, new: &str| text.replace(old, new);
    for (text, said) in [
        // Nothing past the last line, and nothing of number 0.
        (String::new(), "answer=15,value=1"),
        (String::from("\n"), "answer=15,value=1\n"),
        (String::from("page=rte2"), "answer=15,value=1\npage=rte2"),
        (String::from("page=rte2\n"), "answer=15,value=2"),
        (String::from("page=rte2\n\nx"), "answer=15,value=2\n"),
        (other("priority=10", "priority=32768"), "answer=15,value=0"),
        (other("priority=10", "priority= 10"), "answer=15,value=9\npriority= 10"),
        (other("priority=10", "priority=\u{e9}\t"), "answer=15,value=9\npriority=\u{e9}\t"),
        (other("end=page\n", ""), "answer=15,value=18"),
        (text.clone() + "more\n", "answer=15,value=19\nmore"),
        (text.clone() + "more", "answer=15,value=19\nmore"),
    ] {
        assert_eq!(printed(&[file("x", &text)]), format!("x: {}\n", said));
    }
}

#[test]
fn long_files() {
    let filled = |size: usize| page("") + &"z".repeat(size - page("").len());
    assert_eq!(page("").lines().count(), 11);
    let text = filled(65_536);
    let tail = &text[page("").len()..];
    assert_eq!(printed(&[file("x", &text)]), format!("x: answer=15,value=12\n{}\n", tail));
    assert_eq!(printed(&[file("x", &filled(65_537))]), "x: longer than 65536 bytes\n");
    // Requests may be longer.
    let requests = "TICK\n".repeat(20_000);
    let said = keyed(&page(""), &requests);
    assert_eq!(said.lines().count(), 20_000);
    assert!(said.ends_with("\n20000: TICK -> answer=0,value=0\n"));
}

#[test]
fn files_that_cannot_be_read() {
    for (error, why) in [
        (2, "no such file"),
        (13, "no permission"),
        (21, "a directory"),
        (1, "error 1"),
        (5, "error 5"),
        (20, "error 20"),
    ] {
        let said = printed(&[unread("x", "", error)]);
        assert_eq!(said, format!("x: cannot be read: {}\n", why));
        // Requests that cannot be read, and what follows from that.
        let text = page("");
        let said = printed(&[file("a", &text), unread("b", "", error), file("c", &text)]);
        let expected = format!(
            "a: answer=0,value=0\n\
             b: cannot be read: {}\n\
             c: answer=0,value=0\n\
             c: without its requests\n",
            why
        );
        assert_eq!(said, expected);
    }
    // Where the next page is none either, nothing more is said.
    let said = printed(&[file("a", &page("")), unread("b", "", 2), unread("c", "", 2)]);
    let expected = "a: answer=0,value=0\nb: cannot be read: no such file\n\
                    c: cannot be read: no such file\n";
    assert_eq!(said, expected);
}

/// Lines before a read that fails were read; what it broke off is no line.
#[test]
fn requests_read_in_part() {
    let (first, next) = (page(""), page("TICK"));
    for (text, shown) in [
        ("TICK\nTICK\n", "1: TICK -> answer=0,value=0\n2: TICK -> answer=0,value=0\n"),
        ("TICK\nTICK", "1: TICK -> answer=0,value=0\n"),
        (
            "TICK\n\n",
            "1: TICK -> answer=0,value=0\n\
             2:  -> answer=13,value=0 (refused: the line is not understood)\n",
        ),
        ("TICK", ""),
        ("", ""),
    ] {
        let said = printed(&[file("a", &first), unread("b", text, 5), file("c", &next)]);
        let expected = format!(
            "a: answer=0,value=0\n{}b: cannot be read: error 5\n\
             c: answer=0,value=0\nc: without its requests\n",
            shown
        );
        assert_eq!(said, expected);
    }
}

#[test]
fn names_of_files() {
    let name: Vec<u8> = (0..=255).collect();
    let mut shown: Vec<u8> = vec![b'?'; 32];
    shown.extend(32..127);
    shown.push(b'?');
    shown.extend(128..=255);
    let missing = File { name: &name, bytes: b"", failed: Some(2) };
    let said = [&shown[..], b": cannot be read: no such file\n"].concat();
    assert_eq!(follow(&[missing]), said);
    let empty = File { name: b"", bytes: b"", failed: Some(2) };
    assert_eq!(follow(&[empty]), b": cannot be read: no such file\n");
    let empty = File { name: &name, bytes: b"", failed: None };
    let step = [shown.clone(), b": not keyed in, without a first page\n".to_vec()].concat();
    assert_eq!(follow(&[missing, empty, missing]), [said.clone(), step, said].concat());
}

#[test]
fn lines_as_they_are_shown() {
    let first = page("FRESH,4,1,1");
    let refused = "answer=13,value=0 (refused: the line is not understood)";
    let wide = |size: usize| "x".repeat(size);
    for (line, shown) in [
        (wide(71), wide(71)),
        (wide(72), wide(72)),
        (wide(73), wide(72) + ".."),
        (wide(74), wide(72) + ".."),
        (wide(100_000), wide(72) + ".."),
        (wide(71) + "\u{7f}\u{1f}", wide(71) + "?.."),
        (String::from(" ~"), String::from(" ~")),
        (String::from("TICK\r"), String::from("TICK?")),
        (String::from("TI\0K\t"), String::from("TI?K?")),
        // Each byte for itself.
        (String::from("\u{e9}"), String::from("??")),
    ] {
        assert_eq!(keyed(&first, &line), format!("1: {} -> {}\n", shown, refused));
    }
}

#[test]
fn ends_of_lines() {
    let first = page("");
    let tick = |number: u64| format!("{}: TICK -> answer=0,value=0\n", number);
    let empty = |number: u64| {
        format!("{}:  -> answer=13,value=0 (refused: the line is not understood)\n", number)
    };
    assert_eq!(keyed(&first, ""), "");
    assert_eq!(keyed(&first, "\n"), empty(1));
    assert_eq!(keyed(&first, "TICK"), tick(1));
    assert_eq!(keyed(&first, "TICK\n"), tick(1));
    assert_eq!(keyed(&first, "TICK\n\n"), tick(1) + &empty(2));
    assert_eq!(keyed(&first, "\n\nTICK"), empty(1) + &empty(2) + &tick(3));
}

#[test]
fn values() {
    let first = page("FRESH,4,1,1 LOAD,A,10 RU,A");
    assert_eq!(
        keyed(&first, "PAGE\nEXEC,11\nEXEC,4,4,0\nPAGE\nFRESH,1,0,0\nPAGE"),
        "1: PAGE -> answer=0,value=154\n\
         2: EXEC,11 -> answer=0,value=1975.1.0.0.0.0\n\
         3: EXEC,4,4,0 -> answer=1,value=5\n\
         4: PAGE -> answer=0,value=161\n\
         5: FRESH,1,0,0 -> answer=0,value=0\n\
         6: PAGE -> answer=0,value=98\n"
    );
    assert_eq!((first.len(), page("").len()), (154, 98));
}

/// Each refusal with its meaning.
#[test]
fn refusals() {
    let all: String = (1..=32).map(|k| format!(" LOAD,P{},10", k)).collect();
    let first = page(&format!("FRESH,4,1,1{}", all));
    let asked = "EXEC,6\nLOAD,P1,32768\nRU,NONE\nSS,P1\nLOAD,P1,1\nLOAD,NEW,1\nRU,P1\n\
                 EXEC,4,4,1\nEXEC,5,1,1\nRN,LOCK,1,0\nTOCK\n";
    assert_eq!(
        keyed(&first, asked),
        "1: EXEC,6 -> answer=2,value=0 (refused: no program is scheduled)\n\
         2: LOAD,P1,32768 -> answer=3,value=0 (refused: a number or parameter is not allowed)\n\
         3: RU,NONE -> answer=4,value=0 (refused: no such program)\n\
         4: SS,P1 -> answer=5,value=0 (refused: the program is in the wrong state)\n\
         5: LOAD,P1,1 -> answer=6,value=0 (refused: the name is in use)\n\
         6: LOAD,NEW,1 -> answer=7,value=0 (refused: all 32 records are used)\n\
         7: RU,P1 -> answer=0,value=0\n\
         8: EXEC,4,4,1 -> answer=8,value=0 (refused: no room now, and the caller would not wait)\n\
         9: EXEC,5,1,1 -> answer=9,value=0 (refused: not the holder)\n\
         10: RN,LOCK,1,0 -> answer=10,value=0 (refused: the resource number is not allocated)\n\
         11: TOCK -> answer=13,value=0 (refused: the line is not understood)\n"
    );
    let ceiling = page("").replace("clock=0", "clock=1000000000000");
    let said = "1: TICK -> answer=11,value=0 (refused: the clock is at its ceiling)\n";
    assert_eq!(keyed(&ceiling, "TICK"), said);
}

/// Each is one line, whatever it makes; 11 is told in the same words where the clock would pass its
/// ceiling.
#[test]
fn many_ticks() {
    let first = page("LOAD,A,10 LOAD,B,10 RU,A EXEC,12,B,2,3,4");
    assert_eq!(
        keyed(&first, "TICK,399\nTICK,100000000\nTICK,0\nTICK,\nEXEC,11"),
        "1: TICK,399 -> answer=0,value=0\n\
         2: TICK,100000000 -> answer=0,value=1\n\
         3: TICK,0 -> answer=3,value=0 (refused: a number or parameter is not allowed)\n\
         4: TICK, -> answer=13,value=0 (refused: the line is not understood)\n\
         5: EXEC,11 -> answer=0,value=1975.12.13.46.43.99\n"
    );
    let near = page("").replace("clock=0", "clock=999999999998");
    assert_eq!(
        keyed(&near, "TICK,3\nTICK,2\nTICK,1"),
        "1: TICK,3 -> answer=11,value=0 (refused: the clock is at its ceiling)\n\
         2: TICK,2 -> answer=0,value=0\n\
         3: TICK,1 -> answer=11,value=0 (refused: the clock is at its ceiling)\n"
    );
}

/// A refused line changes nothing and does not end the run.
#[test]
fn refused_lines_among_others() {
    let (first, next) = (page("FRESH,4,1,1"), page("FRESH,4,1,1 TICK LOAD,A,10"));
    let requests = "TICK\nFRESH,0,0,0\nRU,A\nLOAD,A,10\nEXEC,6\n";
    let said = printed(&[file("a", &first), file("b", requests), file("c", &next)]);
    assert!(said.ends_with("\nc: answer=0,value=0\nc: follows\n"), "{}", said);
    assert_eq!(said.matches(" (refused: ").count(), 3);
}

/// The page given outranks what the requests came to, and numbers of lines begin anew.
#[test]
fn on_from_the_page_given() {
    let [one, two, three] = ["TICK", "TICK TICK", "TICK TICK TICK"].map(page);
    let tick = file("b", "TICK\n");
    let said = printed(&[
        file("1", &one),
        tick,
        file("3", &three),
        tick,
        file("2", &two),
        tick,
        file("3", &three),
    ]);
    assert_eq!(
        said,
        "1: answer=0,value=0\n\
         1: TICK -> answer=0,value=0\n\
         3: answer=0,value=0\n\
         3: does not follow\n\
         line 2: clock=3 on the sheet, clock=2 by the requests\n\
         1: TICK -> answer=0,value=0\n\
         2: answer=0,value=0\n\
         2: does not follow\n\
         line 2: clock=2 on the sheet, clock=4 by the requests\n\
         1: TICK -> answer=0,value=0\n\
         3: answer=0,value=0\n\
         3: follows\n"
    );
}

#[test]
fn without_a_first_page() {
    let (one, two) = (page(""), page("TICK"));
    let tick = file("r", "TICK\n");
    let said = printed(&[
        file("none", "x"),
        tick,
        file("one", &one),
        tick,
        file("none", "x\n"),
        // Not opened: nothing is said of what would come of it.
        unread("r", "", 2),
        unread("gone", "", 2),
        tick,
        file("one", &one),
        tick,
        file("two", &two),
    ]);
    assert_eq!(
        said,
        "none: answer=15,value=1\nx\n\
         r: not keyed in, without a first page\n\
         one: answer=0,value=0\n\
         1: TICK -> answer=0,value=0\n\
         none: answer=15,value=1\nx\n\
         r: not keyed in, without a first page\n\
         gone: cannot be read: no such file\n\
         r: not keyed in, without a first page\n\
         one: answer=0,value=0\n\
         1: TICK -> answer=0,value=0\n\
         two: answer=0,value=0\n\
         two: follows\n"
    );
}

/// A program that only one of the two has, at the end of the records and before others.
#[test]
fn lines_of_one_page_alone() {
    let (one, two) = (page("LOAD,A,10"), page("LOAD,A,10 LOAD,B,20"));
    let said = |sheet: &str, written: &str| {
        let said = differences(sheet.as_bytes(), written.as_bytes());
        String::from_utf8(said).expect("text")
    };
    assert_eq!(
        said(&one, &two),
        "line 6: programs=1 on the sheet, programs=2 by the requests\n\
         written line 14: no such line on the sheet, id=2 by the requests\n\
         written line 15: no such line on the sheet, name=B by the requests\n\
         written line 16: no such line on the sheet, priority=20 by the requests\n\
         written line 17: no such line on the sheet, state=0 by the requests\n\
         written line 18: no such line on the sheet, why=- by the requests\n\
         written line 19: no such line on the sheet, due=- by the requests\n\
         written line 20: no such line on the sheet, interval=- by the requests\n"
    );
    assert_eq!(
        said(&two, &one),
        "line 6: programs=2 on the sheet, programs=1 by the requests\n\
         line 14: id=2 on the sheet, no such line by the requests\n\
         line 15: name=B on the sheet, no such line by the requests\n\
         line 16: priority=20 on the sheet, no such line by the requests\n\
         line 17: state=0 on the sheet, no such line by the requests\n\
         line 18: why=- on the sheet, no such line by the requests\n\
         line 19: due=- on the sheet, no such line by the requests\n\
         line 20: interval=- on the sheet, no such line by the requests\n"
    );
    let held = |lines: &str| page(&format!("FRESH,6,0,0 LOAD,A,1 LOAD,B,2 RU,A {}", lines));
    let (one, two) = (held("EXEC,4,3,0"), held("EXEC,4,3,0 EXEC,5,1,1"));
    assert_eq!(
        said(&one, &two),
        "line 25: held=0-2:1 on the sheet, held=0-0:1 by the requests\n\
         written line 26: no such line on the sheet, held=2-2:1 by the requests\n"
    );
    assert_eq!(
        said(&two, &one),
        "line 25: held=0-0:1 on the sheet, held=0-2:1 by the requests\n\
         line 26: held=2-2:1 on the sheet, no such line by the requests\n"
    );
}

/// The mark of one who waits is a line of its own, and all such lines are alike: where it stands at
/// another program the desk lists nothing, and the first line at which the pages part is shown.
#[test]
fn marks() {
    let waiting = "FRESH,1,1,0 LOAD,A,10 LOAD,B,10 RU,A RU,B EXEC,4,1,0 EXEC,4,1,0";
    let [none, one, two] = ["", "SS,A", "SS,B"].map(|line| page(&format!("{} {}", waiting, line)));
    let both = page(&format!("{} SS,A SS,B", waiting));
    let said = |requests: &str, next: &str| {
        let said = printed(&[file("a", &none), file("r", requests), file("b", next)]);
        said.split_once("b: answer=0,value=0\n").expect("a page").1.to_string()
    };
    let differs = "b: does not follow\n".to_string();
    assert_eq!(said("SS,A\nSS,A\n", &one), "b: follows\n");
    assert_eq!(
        said("SS,B", &one),
        differs.clone() + "line 14: suspend=1 on the sheet, id=2 by the requests\n"
    );
    assert_eq!(
        said("SS,A", &two),
        differs.clone() + "line 14: id=2 on the sheet, suspend=1 by the requests\n"
    );
    assert_eq!(
        said("SS,B", &none),
        differs.clone() + "written line 21: no such line on the sheet, suspend=1 by the requests\n"
    );
    // It is the second one that the requests lack, though it is the first program's mark.
    assert_eq!(
        said("SS,B", &both),
        differs + "line 22: suspend=1 on the sheet, no such line by the requests\n"
    );
}

/// No two pages part behind the end of one of them; texts do.
#[test]
fn where_nothing_is_listed() {
    for (sheet, written, said) in [
        ("a=1\nb=1\n", "b=1\na=1\n", "line 1: a=1 on the sheet, b=1 by the requests\n"),
        ("a=1\nb=1\n", "a=1\nx\nb=1\n", "line 2: b=1 on the sheet, x by the requests\n"),
        ("a=1\n", "a=1\nx\ny\n", "line 2: no such line on the sheet, x by the requests\n"),
        ("a=1\nx\ny\n", "a=1\n", "line 2: x on the sheet, no such line by the requests\n"),
        ("", "\n", "line 1: no such line on the sheet,  by the requests\n"),
        // Not where something is.
        ("a=1\nx\n", "a=2\ny\n", "line 1: a=1 on the sheet, a=2 by the requests\n"),
        ("x\n", "y\nb=\n", "written line 2: no such line on the sheet, b= by the requests\n"),
        ("a=1\n", "a=1\n", ""),
    ] {
        assert_eq!(differences(sheet.as_bytes(), written.as_bytes()), said.as_bytes());
    }
}

/// Bytes of a page's line are not shown otherwise than they stand.
#[test]
fn any_bytes_in_differences() {
    let said = differences(b"a=\xff\0\r\n", b"a=\t\nb=\x80\n");
    let expected: &[u8] = b"line 1: a=\xff\0\r on the sheet, a=\t by the requests\n\
                            written line 2: no such line on the sheet, b=\x80 by the requests\n";
    assert_eq!(said, expected);
}
