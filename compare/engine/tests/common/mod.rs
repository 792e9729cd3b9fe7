//! Small helpers for scripts with expected output.

use engine::sheet;

pub fn run(script: &str) -> String {
    String::from_utf8(sheet(script.as_bytes())).expect("sheet prints text")
}

/// A script written with blanks between its lines, as console lines have none.
pub fn script(lines: &str) -> String {
    let lines: Vec<&str> = lines.split_whitespace().collect();
    lines.join("\n") + "\n"
}

/// The answers as `number,value`, one for each line of a script without PAGE.
pub fn answers(lines: &str) -> String {
    let printed = run(&script(lines));
    let pairs: Vec<String> =
        printed.lines().map(|line| line.replace("answer=", "").replace("value=", "")).collect();
    pairs.join(" ")
}

/// The last answer of a script.
pub fn last(lines: &str) -> String {
    answers(lines).rsplit(' ').next().unwrap_or("").to_string()
}

/// Every line of the final page that has this key.
#[allow(dead_code)]
pub fn page(lines: &str, key: &str) -> Vec<String> {
    let printed = run(&script(&format!("{} PAGE", lines)));
    let start = printed.rfind("page=rte2").expect("a page");
    let key = format!("{}=", key);
    printed[start..].lines().filter_map(|line| line.strip_prefix(&key)).map(String::from).collect()
}

/// A chain of the final page.
#[allow(dead_code)]
pub fn chain(lines: &str, state: u8) -> String {
    page(lines, &format!("chain{}", state)).concat()
}
