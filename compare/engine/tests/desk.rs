//! The reading desk, on texts put by hand: what is found, what is listed, and what `desk` prints.

use engine::desk::{find, list};
use engine::{Answer, Desk, Found, Mark};

fn at(mark: Mark, begin: usize, end: usize) -> Found {
    Found { answer: Answer::new(0, 0), mark, begin, end }
}

/// The empty front of the original.
fn refused(number: u64) -> Found {
    Found { answer: Answer::new(number, 0), mark: Mark::Original, begin: 0, end: 0 }
}

fn find_in(original: &str, copy: &str, key: &str, occurrence: u64) -> Found {
    find(original.as_bytes(), copy.as_bytes(), key.as_bytes(), occurrence)
}

/// The line that is found, with the letter of its text.
fn line(original: &str, copy: &str, key: &str, occurrence: u64) -> String {
    let found = find_in(original, copy, key, occurrence);
    if found.answer != Answer::new(0, 0) {
        assert_eq!(found, refused(found.answer.number));
        return format!("{}", found.answer.number);
    }
    let (letter, text) = match found.mark {
        Mark::Original => ('o', original),
        Mark::Copy => ('c', copy),
    };
    format!("{} {}", letter, &text[found.begin..found.end])
}

/// The list of exactly as many places as are needed; with one fewer it stays as it was.
fn listed(original: &str, copy: &str) -> Vec<u64> {
    let (original, copy) = (original.as_bytes(), copy.as_bytes());
    let mut many = [77; 1_000];
    let answer = list(original, copy, &mut many);
    let count = (0..).find(|count| answer == Answer::new(0, *count)).expect("answer 0") as usize;
    assert!(many[count..].iter().all(|place| *place == 77));
    let mut exact = vec![77; count];
    assert_eq!(list(original, copy, &mut exact), answer);
    assert_eq!(exact, many[..count]);
    if count > 0 {
        let mut short = vec![77; count - 1];
        assert_eq!(list(original, copy, &mut short), Answer::new(12, count as u64));
        assert!(short.iter().all(|place| *place == 77));
    }
    exact
}

#[test]
fn no_texts() {
    assert_eq!(find_in("", "", "a", 1), refused(17));
    assert_eq!(listed("", ""), []);
    assert_eq!(listed("", "a=1\n"), []);
    assert_eq!(listed("a=1\n", ""), [1]);
    assert_eq!(line("", "a=1\n", "a", 1), "c a=1");
    assert_eq!(line("a=1\n", "", "a", 1), "o a=1");
}

#[test]
fn nothing_but_ends() {
    assert_eq!(line("\n", "\n\n\n", "a", 1), "17");
    assert_eq!(listed("\n", ""), []);
    assert_eq!(listed("\n\n\n", "\n"), []);
    // They are lines all the same.
    assert_eq!(listed("\n\n\na=1\n", "a=1\n"), []);
    assert_eq!(listed("\n\n\na=1\n", "\n\n"), [4]);
    assert_eq!(find_in("\n\n\na=1\n", "", "a", 1), at(Mark::Original, 3, 6));
}

#[test]
fn a_last_line_without_byte_10() {
    assert_eq!(find_in("a=1", "", "a", 1), at(Mark::Original, 0, 3));
    assert_eq!(find_in("a=1\nb=22", "", "b", 1), at(Mark::Original, 4, 8));
    assert_eq!(find_in("a=1\nb=22\n", "", "b", 1), at(Mark::Original, 4, 8));
    assert_eq!(find_in("", "x\nb=22", "b", 1), at(Mark::Copy, 2, 6));
    // The byte 10 is none of the line's bytes.
    assert_eq!(listed("a=1", "a=1\n"), []);
    assert_eq!(listed("a=1\n", "a=1"), []);
    assert_eq!(listed("a=1\n", "a=1\n\n"), []);
    assert_eq!(listed("a=1", "a=1\r\n"), [1]);
    assert_eq!(listed("b=1\na=1", "b=1\n"), [2]);
}

#[test]
fn an_equals_alone() {
    // The key is empty: it is listed, but nobody can ask for it.
    assert_eq!(listed("=", ""), [1]);
    assert_eq!(listed("=", "=\n"), []);
    assert_eq!(listed("=x\n", "=y\n"), [1]);
    assert_eq!(listed("=x\n=y\n", "=x\n"), [2]);
    assert_eq!(listed("=x\n=y\n", "x\n=x\n\n=y"), []);
    assert_eq!(line("=x\n", "=x\n", "", 1), "3");
    assert_eq!(line("=\n", "=\n", "=", 1), "17");
}

#[test]
fn three_goes_first() {
    for occurrence in [0, 1, 2, u64::MAX] {
        assert_eq!(find_in("", "", "", occurrence), refused(3));
        assert_eq!(find_in("=x\n", "", "", occurrence), refused(3));
    }
    assert_eq!(find_in("a=1\n", "a=1\n", "a", 0), refused(3));
    assert_eq!(find_in("", "", "a", 0), refused(3));
    assert_eq!(find_in("", "", "a=", 0), refused(3));
    assert_eq!(find_in("", "", "a", 1), refused(17));
}

#[test]
fn no_key_without_equals() {
    assert_eq!(line("a\nb=1\n", "a\n", "a", 1), "17");
    assert_eq!(listed("a\nb=1\n", "b=1\n"), []);
    // Passed over, and counted.
    assert_eq!(listed("a\nb=1\n\nb=2\n", "b=1\n"), [4]);
    assert_eq!(listed("a\nb=1\n", "c\nd\ne\nb=2\n"), [2]);
    // No occurrence of its own bytes either.
    assert_eq!(line("a\na=1\na\na=2\n", "", "a", 2), "o a=2");
}

#[test]
fn the_first_equals_ends_the_key() {
    assert_eq!(line("a=b=c\n", "", "a", 1), "o a=b=c");
    assert_eq!(line("a=b=c\n", "", "a=b", 1), "17");
    assert_eq!(listed("a=b=c\n", "a=b=d\n"), [1]);
    assert_eq!(listed("a=b=c\na=b=c\n", "a=b=c\na=c=c\n"), [2]);
    assert_eq!(line("a==1\n", "", "a", 1), "o a==1");
    assert_eq!(listed("a==1\n", "a=1\n"), [1]);
    assert_eq!(line("==\n", "a===", "a", 1), "c a===");
}

#[test]
fn keys_that_are_fronts_of_keys() {
    let text = "held=1\nhe=2\nheld =3\nhel=4\nh=5\n held=6\nHELD=7\n";
    for (key, found) in [
        ("held", "o held=1"),
        ("he", "o he=2"),
        ("held ", "o held =3"),
        ("hel", "o hel=4"),
        ("h", "o h=5"),
        (" held", "o  held=6"),
        ("HELD", "o HELD=7"),
        ("helds", "17"),
        ("eld", "17"),
        ("d", "17"),
        (" ", "17"),
    ] {
        assert_eq!(line(text, "", key, 1), found, "{}", key);
        assert_eq!(line(text, "", key, 2), "17", "{}", key);
    }
    assert_eq!(listed("ab=1\n", "a=1\nabc=1\n"), [1]);
    assert_eq!(listed("ab=1\n", "a=1\nabc=1\nab=1\n"), []);
}

#[test]
fn a_key_that_no_line_has() {
    let text = "x\na=1\nb=2\n";
    for key in ["a=", "a=1", "=", "x\na", "a=1\nb", "\n", "\na", "a\n", "x", "x\n"] {
        assert_eq!(line(text, text, key, 1), "17", "{:?}", key);
    }
}

#[test]
fn keys_repeated() {
    let (original, copy) = ("k=1\nj=1\nk=2\nk=3\n", "k=9\nk=8\nk=7\nk=6\nk=5");
    for (occurrence, found) in
        [(1, "o k=1"), (2, "o k=2"), (3, "o k=3"), (4, "c k=6"), (5, "c k=5"), (6, "17"), (7, "17")]
    {
        assert_eq!(line(original, copy, "k", occurrence), found);
    }
    assert_eq!(line(original, copy, "k", u64::MAX), "17");
    assert_eq!(line(original, copy, "k", (1 << 32) + 1), "17");
    assert_eq!(line(copy, original, "j", 1), "c j=1");
    assert_eq!(line(copy, original, "j", 2), "17");
    assert_eq!(find_in(original, copy, "k", 4), at(Mark::Copy, 12, 15));
    assert_eq!(find_in(original, copy, "k", 5), at(Mark::Copy, 16, 19));
    // The original has more of them: the last ones have no counterpart.
    assert_eq!(listed(original, "k=1\nk=2\nj=1\n"), [4]);
    assert_eq!(listed("k=1\nk=1\nk=1\n", "k=1\n"), [2, 3]);
    // Each text's occurrences are its own.
    assert_eq!(listed("k=1\nk=2\n", "k=2\nk=1\n"), [1, 2]);
    assert_eq!(listed("k=1\nk=2\nk=3\n", "k=2\nk=3\n"), [1, 2, 3]);
    assert_eq!(listed("k=2\nk=3\n", "k=1\nk=2\nk=3\n"), [1, 2]);
}

/// Only where a line stands is another place.
#[test]
fn other_places() {
    assert_eq!(listed("a=1\nb=1\nc=1\n", "c=1\na=1\nb=1\n"), []);
    assert_eq!(listed("a=1\nb=1\nc=1\n", "c=1\nx\nb=2\n\na=1\n"), [2]);
    assert_eq!(listed("a=1\nk=1\nb=1\nk=2\n", "k=1\nb=1\nk=2\na=1\n"), []);
}

#[test]
fn lines_of_the_copy_alone() {
    assert_eq!(listed("a=1\n", "b=1\na=1\na=2\n=\nx\n"), []);
    assert_eq!(listed("x\n", "a=1\n"), []);
    assert_eq!(line("a=1\n", "b=1\na=1\na=2\n", "a", 2), "c a=2");
}

#[test]
fn the_order_is_the_originals() {
    assert_eq!(listed("z=1\na=1\nm=1\n=1\nb=1\n", ""), [1, 2, 3, 4, 5]);
    assert_eq!(listed("z=1\na=1\nm=1\n=1\nb=1\n", "b=2\n=2\nz=2\na=2\nm=2\n"), [1, 2, 3, 4, 5]);
}

/// The places behind what is listed stay as they were, and all of them where there are too few.
#[test]
fn lists() {
    let (original, copy) = (b"a=1\nx\nb=1\nc=1\n", b"b=1\n");
    let mut list = [9, 8, 7, 6];
    let desk = Desk::new(original, copy);
    assert_eq!(desk.list(&mut list), Answer::new(0, 2));
    assert_eq!(list, [1, 4, 7, 6]);
    assert_eq!(desk.list(&mut list[2..]), Answer::new(0, 2));
    assert_eq!(list, [1, 4, 1, 4]);
    let mut list = [9];
    assert_eq!(desk.list(&mut list), Answer::new(12, 2));
    assert_eq!(list, [9]);
    assert_eq!(desk.list(&mut []), Answer::new(12, 2));
    // No place is enough for nothing.
    assert_eq!(Desk::new(original, original).list(&mut []), Answer::new(0, 0));
    assert_eq!(Desk::new(b"", copy).list(&mut []), Answer::new(0, 0));
    let mut list = [9];
    assert_eq!(Desk::new(original, original).list(&mut list), Answer::new(0, 0));
    assert_eq!(list, [9]);
}

/// Any bytes: 0, 13 and 255 end nothing.
#[test]
fn any_bytes() {
    let original = b"\0a=\xff\0\r\nb\r=1\r\n\xff\xfe=\x80\n";
    let copy = b"\0a=\xff\0\r\nb\r=1\n\xff\xfe=\x80";
    let mut list = [0; 3];
    assert_eq!(engine::desk::list(original, copy, &mut list), Answer::new(0, 1));
    assert_eq!(list, [2, 0, 0]);
    assert_eq!(find(original, copy, b"\0a", 1), at(Mark::Original, 0, 6));
    assert_eq!(find(original, copy, b"\xff\xfe", 1), at(Mark::Original, 13, 17));
    assert_eq!(find(original, copy, b"b\r", 1), at(Mark::Original, 7, 12));
    assert_eq!(find(original, copy, b"b", 1), refused(17));
}

#[test]
fn long_lines() {
    let long = "v".repeat(100_000);
    let text = format!("x\na={}\nb=1\n", long);
    let other = format!("x\na={}w\nb=1\n", &long[1..]);
    assert_eq!(find_in(&text, "", "a", 1), at(Mark::Original, 2, 100_004));
    assert_eq!(find_in(&text, "", "b", 1), at(Mark::Original, 100_005, 100_008));
    assert_eq!(listed(&text, &text), []);
    assert_eq!(listed(&text, &other), [2]);
    // The key is as long.
    let text = format!("{}=1\n{}w=2\n", long, long);
    assert_eq!(find_in(&text, "", &long, 1), at(Mark::Original, 0, 100_002));
    assert_eq!(find_in(&text, "", &(long.clone() + "w"), 1), at(Mark::Original, 100_003, 200_006));
    assert_eq!(find_in(&text, "", &long, 2), refused(17));
    assert_eq!(listed(&text, &format!("{}=1\n", long)), [2]);
    // And so is a line without any.
    assert_eq!(listed(&format!("{}\na=1", long), ""), [2]);
}

/// 300 lines of one key, and more lines than 16 bits count.
#[test]
fn many_lines() {
    let held = |count: usize| (0..count).map(|k| format!("held={}\n", k)).collect::<String>();
    assert_eq!(line(&held(300), "", "held", 300), "o held=299");
    assert_eq!(line(&held(200), &held(300), "held", 257), "c held=256");
    assert_eq!(line(&held(200), &held(300), "held", 301), "17");
    assert_eq!(listed(&held(300), &held(298)), [299, 300]);
    let empty = "\n".repeat(70_000);
    assert_eq!(listed(&(empty.clone() + "a=1"), "a=2"), [70_001]);
    assert_eq!(find_in(&(empty + "a=1"), "a=2", "a", 1), at(Mark::Original, 70_000, 70_003));
}

#[test]
fn what_is_printed() {
    let desk = Desk::new(b"a=1\nx\nb=1\nb= \xff\0\n=\n", b"a=2\nb=1\nc=|");
    let list: &[u8] =
        b"line 1: a=1 | a=2\nline 4: b= \xff\0 | -\nline 5: = | -\nanswer=0,value=3\n";
    assert_eq!(desk.print(None), list);
    for (key, occurrence, printed) in [
        (&b"a"[..], 1, &b"original: a=1\n"[..]),
        (b"b", 2, b"original: b= \xff\0\n"),
        (b"c", 1, b"copy: c=|\n"),
        (b"c", 2, b"answer=17,value=0\n"),
        (b"c=", 1, b"answer=17,value=0\n"),
        (b"", 1, b"answer=3,value=0\n"),
        (b"a", 0, b"answer=3,value=0\n"),
    ] {
        assert_eq!(desk.print(Some((key, occurrence))), printed);
    }
    assert_eq!(Desk::new(b"a=1", b"a=1\n").print(None), b"answer=0,value=0\n");
    assert_eq!(Desk::new(b"", b"").print(None), b"answer=0,value=0\n");
}
