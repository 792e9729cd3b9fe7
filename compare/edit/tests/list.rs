//! The list of wrong engines: what is read, what is refused, and how many of them one source holds.

use edit::change::apply;
use edit::list::{read, Edit};
use edit::many::with_all;

const LIST: &str = "# About sums.

fault: one-more
what: adds one more
file: sum.rs
old: a + b
new: a + b + 1

fault: none
what: adds nothing
file: sum.rs
old: let c =
old:     a + b;
new: let c =
new:     a;
old: c * 2
new:
file: other.rs
old: X
new: Y
";

const SOURCE: &str = "fn f(a: u64, b: u64) -> u64 {
    let c =
        a + b;
    c * 2
}
const X: u64 = 2;
";

fn edit(old: &[&str], new: &str) -> Edit {
    let old = old.iter().map(|line| line.to_string()).collect();
    Edit { file: String::from("sum.rs"), old, new: vec![new.to_string()] }
}

#[test]
fn what_is_read() {
    let patches = read(LIST).expect("a list");
    let names: Vec<_> = patches.iter().map(|patch| (&patch.name[..], &patch.what[..])).collect();
    assert_eq!(names, [("one-more", "adds one more"), ("none", "adds nothing")]);
    assert_eq!(patches[0].edits, [edit(&["a + b"], "a + b + 1")]);
    let files: Vec<_> = patches[1].edits.iter().map(|edit| &edit.file[..]).collect();
    assert_eq!(files, ["sum.rs", "sum.rs", "other.rs"]);
    assert_eq!(patches[1].edits[1], edit(&["c * 2"], ""));
}

#[test]
fn what_is_refused() {
    for list in [
        "what: before its name",
        "fault: a\nold: before its file",
        "fault: a\nwhat: b\nfile: c\nnew: before the old",
        "fault: a\nwhat: b\nfile: c\nold: without a new one",
        "fault: a\nwhat: b\nfile: c",
        "fault: a\nwhat: b",
        "fault: a\nfile: b\nold: c\nnew: d",
        "fault: a\nwhat: b\nwhat: c",
        "fault: a\nanother: b",
        "fault",
    ] {
        assert!(read(list).is_err(), "{}", list);
    }
}

#[test]
fn old_text_stands_exactly_once() {
    let refused = |old: &[&str]| edit(old, "new").change(SOURCE).expect_err("not once");
    assert!(refused(&["no such text"]).starts_with("sum.rs: 0 times"));
    assert!(refused(&["let c =", "c * 2"]).starts_with("sum.rs: 0 times"));
    assert!(refused(&["u64"]).starts_with("sum.rs: 4 times"));
    let change = edit(&["let c =", "a + b;"], "let c = a;").change(SOURCE).expect("once");
    assert_eq!((change.line, &change.context[..]), (2, "let c ="));
    assert!(
        apply(SOURCE, &[&change]).starts_with("fn f(a: u64, b: u64) -> u64 {\n    let c = a;\n")
    );
}

#[test]
fn many_in_one_source() {
    let change = |old: &str, new: &str| edit(&[old], new).change(SOURCE).expect("once");
    let (sum, twice, constant) = (change("a + b", "a"), change("c * 2", "c"), change("X", "Y"));
    assert!(sum.body.is_some() && sum.body == twice.body && constant.body.is_none());
    let (text, places) = with_all(SOURCE, &[(7, &sum), (7, &twice), (9, &twice)]);
    let expected = "fn f(a: u64, b: u64) -> u64 { match crate::choice::chosen() {
7 => {
    let c =
        a;
    c
}
9 => {
    let c =
        a + b;
    c
}
_ => {
    let c =
        a + b;
    c * 2
}
} }
const X: u64 = 2;
";
    assert_eq!(text, expected);
    assert_eq!(places, [(7, 2, 6), (9, 7, 11)]);
}
