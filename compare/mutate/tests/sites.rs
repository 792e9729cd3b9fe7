//! The changes that a source allows, and those that it does not.

use edit::change::apply;
use edit::files::{files, read};
use edit::lexer::tokens;
use mutate::sites::changes;
use std::path::Path;

/// `old>new` for each change, parted by blanks.
fn found(source: &str) -> String {
    let all = changes(source);
    let pairs: Vec<String> =
        all.iter().map(|change| change.old.clone() + ">" + &change.new).collect();
    pairs.join(" ")
}

#[test]
fn numbers_and_operators() {
    assert_eq!(found("let a = 1_000;"), "1_000>1001 1_000>999 1_000>0");
    assert_eq!(found("let a = b'A';"), "b'A'>66 b'A'>64");
    assert_eq!(found("if a < b && !c {"), "<><= <>>= &&>|| !>");
    assert_eq!(found("a == b || a != b"), "==>!= ||>&& !=>==");
    assert_eq!(found("a * b + c % d"), "*>+ *>/ +>- +>* %>/ %>*");
    assert_eq!(found("a += b;"), "+=>-= +=>*=");
    assert_eq!(found("(a..=b).contains(&c) && (a..b)"), "..=>.. &&>|| ..>..=");
}

#[test]
fn what_is_no_operator() {
    let source =
        "#[derive(Debug)]\n// 1 < 2\nfn f<'a>(x: &'a [Vec<u8>]) -> T { g(\"1 + 2\", *x, -y, x.0) }";
    assert_eq!(found(source), "");
    assert_eq!(found("let x = Released { tracks, ..old }; |a| a; format!(x); &run[..n]"), "");
    assert_eq!(found("match c { 'x' | '\\'' => a, b'\\n' => b }"), "");
}

/// Every change of the engine's sources is where it says.
#[test]
fn the_engine() {
    let folder = Path::new(env!("CARGO_MANIFEST_DIR")).join("../engine/src");
    let mut count = 0;
    for path in files(&folder, "rs").expect("sources") {
        let source = read(&path).expect("a source");
        let tokens = tokens(&source);
        assert!(tokens.windows(2).all(|two| source[two[0].end()..two[1].start].trim().is_empty()));
        for change in changes(&source) {
            count += 1;
            let line = source.lines().nth(change.line - 1).expect("a line");
            assert!(line.contains(&change.old) && line.trim() == change.context);
            let changed = apply(&source, &[&change]);
            assert_ne!(changed, source);
            assert_eq!(changed.len() + change.old.len(), source.len() + change.new.len());
        }
    }
    assert!(count > 600, "{} changes", count);
}
