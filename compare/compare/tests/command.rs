//! The command itself, with itself as the program that is compared.

use std::ffi::OsStr;
use std::io::Write;
use std::os::unix::ffi::OsStrExt;
use std::process::{Command, Output, Stdio};

const COMPARE: &str = env!("CARGO_BIN_EXE_compare");

fn compare(args: &[&str], input: &[u8]) -> Output {
    let mut child = Command::new(COMPARE)
        .args(args)
        .stdin(Stdio::piped())
        .stdout(Stdio::piped())
        .stderr(Stdio::piped())
        .spawn()
        .expect("the command starts");
    child.stdin.take().expect("a pipe").write_all(input).expect("input is read");
    child.wait_with_output().expect("the command ends")
}

#[test]
fn a_program_that_agrees() {
    let output =
        compare(&["run", "--seeds", "1..60", "--lines", "100", "--", COMPARE, "sheet"], b"");
    assert_eq!(output.status.code(), Some(0));
    let text = String::from_utf8_lossy(&output.stdout).to_string();
    assert!(text.ends_with("59 scripts, 5900 lines: no difference\n"), "{}", text);
}

#[test]
fn a_program_that_differs() {
    let output = compare(&["run", "--seeds", "1..3", "--", COMPARE, "gen", "--lines", "2"], b"");
    assert_eq!(output.status.code(), Some(1));
    assert!(String::from_utf8_lossy(&output.stdout).contains("the other prints:"));
}

#[test]
fn a_mutant() {
    let output = compare(&["run", "--fault", "across-gap"], b"");
    assert_eq!(output.status.code(), Some(1));
    let text = String::from_utf8_lossy(&output.stdout).to_string();
    assert!(text.contains("script:\n    FRESH,"), "{}", text);
}

#[test]
fn pages() {
    let output = compare(&["pages", "--count", "500", "--fault", "lines-from-0"], b"");
    assert_eq!(output.status.code(), Some(1));
    let text = String::from_utf8_lossy(&output.stdout).to_string();
    assert!(
        text.starts_with("difference on page ") && text.contains("the other says:"),
        "{}",
        text
    );
    // An engine that reads pages rightly.
    let output = compare(&["pages", "--count", "500", "--fault", "three-passes"], b"");
    assert_eq!(output.status.code(), Some(0));
    let output = compare(&["pages", "--count", "500"], b"");
    assert_eq!(output.status.code(), Some(0));
    let text = String::from_utf8_lossy(&output.stdout).to_string();
    assert!(text.contains("\nall ") && text.contains("\nwith suspend=1 "), "{}", text);
}

#[test]
fn texts() {
    let output = compare(&["texts", "--count", "300", "--fault", "copy-preferred"], b"");
    assert_eq!(output.status.code(), Some(1));
    let text = String::from_utf8_lossy(&output.stdout).to_string();
    assert!(
        text.starts_with("difference on pair ") && text.contains("the other says:"),
        "{}",
        text
    );
    // An engine whose desk is right.
    let output = compare(&["texts", "--count", "300", "--fault", "three-passes"], b"");
    assert_eq!(output.status.code(), Some(0));
    assert_eq!(output.stdout, b"1900 pairs: no difference\n");
    let output = compare(&["texts", "--count", "300"], b"");
    assert_eq!(output.status.code(), Some(0));
    assert!(String::from_utf8_lossy(&output.stdout).contains("\ncounterpart missing "));
}

/// `compare look` is a `desk` program.
#[test]
fn desk() {
    let output = compare(&["desk", "--count", "30", "--", COMPARE, "look"], b"");
    assert_eq!(output.status.code(), Some(0));
    assert_eq!(output.stdout, b"54 pairs, 216 runs: no difference\n");
    let output = compare(&["desk", "--count", "1", "--", "echo", "answer=0,value=0"], b"");
    assert_eq!(output.status.code(), Some(1));
    let text = String::from_utf8_lossy(&output.stdout).to_string();
    assert!(
        text.contains("the engine prints:") && text.contains("\n  > answer=0,value=0"),
        "{}",
        text
    );
    let output = compare(&["desk", "--fault", "prints-fields"], b"");
    assert_eq!(output.status.code(), Some(1));
}

/// `compare after` is a `follow` program.
#[test]
fn follow() {
    let output = compare(&["follow", "--count", "30", "--", COMPARE, "after"], b"");
    assert_eq!(output.status.code(), Some(0));
    let text = String::from_utf8_lossy(&output.stdout).to_string();
    assert!(text.starts_with("runs  ") && text.contains("\nfollows  "), "{}", text);
    assert!(text.ends_with(" runs: no difference\n"), "{}", text);
    let output = compare(&["follow", "--count", "1", "--", "echo", "answer=0,value=0"], b"");
    assert_eq!(output.status.code(), Some(1));
    let text = String::from_utf8_lossy(&output.stdout).to_string();
    assert!(
        text.contains("the engine prints:\n  > ") && text.contains("\n  > answer=0,value=0 "),
        "{}",
        text
    );
    let output = compare(&["follow", "--fault", "page-printed"], b"");
    assert_eq!(output.status.code(), Some(1));
    // An engine that is wrong elsewhere alone.
    let output = compare(&["follow", "--count", "1", "--fault", "copy-preferred"], b"");
    assert_eq!(output.status.code(), Some(0));
}

/// The files of a difference, names that are no text, and what is none.
#[test]
fn after() {
    let folder = std::env::temp_dir().join(format!("compare-after-{}", std::process::id()));
    std::fs::create_dir_all(&folder).expect("a folder");
    let saved = folder.join("saved").display().to_string();
    compare(&["follow", "--save", &saved, "--fault", "refused-ends-the-run"], b"");
    let [first, requests, next] = [1, 2, 3].map(|place| format!("{}.{}", saved, place));
    let missing = folder.join(OsStr::from_bytes(b"\xff\x01"));
    let said = |names: &[&OsStr]| {
        let run = Command::new(COMPARE).arg("after").args(names).output();
        let run = run.expect("the command ends");
        assert_eq!(run.status.code(), Some(0));
        run.stdout
    };
    let run = said(&[&first, &requests, &next].map(OsStr::new));
    let [alone, none] = [said(&[OsStr::new(&first)]), said(&[missing.as_os_str()])];
    let directory = said(&[folder.as_os_str()]);
    std::fs::remove_dir_all(&folder).expect("the folder goes");
    let run = String::from_utf8_lossy(&run).to_string();
    let begins = format!("{}: answer=0,value=0\n1: ", first);
    assert!(run.starts_with(&begins) && run.contains(" (refused: "), "{}", run);
    assert_eq!(alone, format!("{}: answer=0,value=0\n", first).into_bytes());
    let name = folder.display().to_string();
    let expected = [name.as_bytes(), b"/\xff?: cannot be read: no such file\n"].concat();
    assert_eq!(none, expected);
    assert_eq!(directory, format!("{}: cannot be read: a directory\n", name).into_bytes());
    let usage = b"usage: follow FIRST.page [REQUESTS NEXT.page ...]\n";
    assert_eq!((said(&[]), said(&[OsStr::new("x"); 2])), (usage.to_vec(), usage.to_vec()));
}

/// Whether the program agrees, differs, or cannot be started.
#[test]
fn no_folder_is_left() {
    let folder = std::env::temp_dir().join(format!("compare-left-{}", std::process::id()));
    std::fs::create_dir_all(&folder).expect("a folder");
    for (command, itself) in [("desk", "look"), ("follow", "after")] {
        for (status, program) in [(0, &[COMPARE, itself][..]), (1, &["echo"]), (2, &["./no-such"])]
        {
            let run = Command::new(COMPARE)
                .args([command, "--count", "2", "--"])
                .args(program)
                .env("TMPDIR", &folder)
                .output();
            assert_eq!(run.expect("the command ends").status.code(), Some(status));
            assert_eq!(std::fs::read_dir(&folder).expect("a folder").count(), 0);
        }
    }
    std::fs::remove_dir_all(&folder).expect("the folder goes");
}

/// The files of a difference, and a key that is no text.
#[test]
fn look() {
    let folder = std::env::temp_dir().join(format!("compare-look-{}", std::process::id()));
    std::fs::create_dir_all(&folder).expect("a folder");
    let saved = folder.join("saved").display().to_string();
    compare(&["desk", "--save", &saved, "--fault", "prints-original-always"], b"");
    let [original, copy] = ["original", "copy"].map(|name| format!("{}.{}", saved, name));
    assert_eq!(std::fs::read(&original).expect("a text"), b"");
    assert!(std::fs::read(&copy).expect("a text").contains(&b'='));
    std::fs::write(&original, b"\xff=1\nb=\n").expect("a file");
    std::fs::write(&copy, b"b=2").expect("a file");
    let looked = |wanted: &[&OsStr]| {
        let run = Command::new(COMPARE).args(["look", &original, &copy]).args(wanted).output();
        run.expect("the command ends").stdout
    };
    let found = looked(&[OsStr::from_bytes(b"\xff"), OsStr::new("1")]);
    assert_eq!(found, b"original: \xff=1\n");
    let list = looked(&[]);
    std::fs::remove_dir_all(&folder).expect("the folder goes");
    assert_eq!(list, b"line 1: \xff=1 | -\nline 2: b= | b=2\nanswer=0,value=2\n");
}

#[test]
fn not_run() {
    for args in [
        &["run"][..],
        &["desk"],
        &["desk", "--", "./no-such-program"],
        &["follow"],
        &["follow", "--", "./no-such-program"],
        &["look", "./no-such-text", "./no-such-text"],
        &["look"],
        &["run", "--", "./no-such-program"],
        &["run", "--fault", "no-such-fault"],
        &["run", "--seeds", "7"],
        &[],
    ] {
        assert_eq!(compare(args, b"").status.code(), Some(2), "{:?}", args);
    }
}

#[test]
fn sheet_gen_and_cases() {
    assert_eq!(
        compare(&["sheet"], b"TICK\nEXEC,6").stdout,
        b"answer=0,value=0\nanswer=2,value=0\n"
    );
    let decimal = |bytes: &[u8]| bytes.iter().map(|b| format!(" {}", b)).collect::<String>();
    let case = |ticks: &[&str], few: &[&str]| {
        let script = compare(&[&["gen", "--seed", "9", "--lines", "150"], ticks].concat(), b"");
        let printed = compare(&["sheet"], &script.stdout).stdout;
        let cases =
            compare(&[&["cases", "--seeds", "9..10", "--lines", "150"], few].concat(), b"").stdout;
        let (given, printed) = (decimal(&script.stdout), decimal(&printed));
        let expected = format!("seed 9\nscript{}\noutput{}\n", given, printed);
        assert_eq!(String::from_utf8_lossy(&cases), expected);
        given
    };
    // Few ticks, unless it is told how many.
    let few = case(&["--ticks", "30"], &[]);
    assert_eq!(few, case(&["--ticks", "30"], &["--ticks", "30"]));
    assert_ne!(few, case(&[], &["--ticks", "100000000"]));
}
