//! Fixed runs of sheets, each for something that a `follow` program may get wrong.

use crate::absurd::EXAMPLE;
use crate::make;
use crate::sheets::{Content, Run, Sheet};
use engine::sheet::{lines, print_line};
use engine::{read, Engine};

/// Every run, the long ones last.
pub fn fixed() -> Vec<Run> {
    let mut runs = counts_of_arguments();
    runs.extend([seven_or_one(), given_outranks(), gone_and_back(), all_refusals()]);
    runs.extend([nothing_changed(), more_and_fewer(), unread_requests(), strange_names()]);
    runs.extend([marks(), many_ticks(), years(), longest_page()]);
    runs.extend(no_pages());
    runs.extend([lines_shown(), long_files_of_requests(), many_lines()]);
    runs
}

fn run(what: &str, sheets: Vec<Sheet>) -> Run {
    Run { what: String::from(what), sheets }
}

/// The tables that these lines, with blanks between them, lead to.
fn tables(script: &str) -> Engine {
    let mut engine = Engine::smallest();
    for line in script.split_whitespace() {
        print_line(&mut engine, line.as_bytes());
    }
    engine
}

fn page(script: &str) -> Vec<u8> {
    tables(script).page_bytes()
}

/// The page that the tables of a page write after these requests.
fn next_page(first: &[u8], requests: &[u8]) -> Vec<u8> {
    let mut engine = read(first).0.engine().expect("sound tables");
    for line in lines(requests) {
        print_line(&mut engine, line);
    }
    engine.page_bytes()
}

/// From the first page through these requests and next pages, in turn.
fn steps(what: &str, first: &[u8], rest: &[(&[u8], &[u8])]) -> Run {
    let mut sheets = vec![Sheet::text("1.page", first)];
    for (place, (requests, next)) in rest.iter().enumerate() {
        sheets.push(Sheet::text(&format!("{}.requests", place + 1), requests));
        sheets.push(Sheet::text(&format!("{}.page", place + 2), next));
    }
    run(what, sheets)
}

/// None, and each up to seven; the even ones get a usage line alone.
fn counts_of_arguments() -> Vec<Run> {
    let page = page("");
    let sheets = |count: usize| {
        let names = ["1.page", "1.requests", "2.page", "2.requests", "3.page", "3.requests"];
        let sheet = |name: &&str| {
            let text: &[u8] = if name.ends_with("page") { &page } else { b"PAGE\n" };
            Sheet::text(name, text)
        };
        names.iter().take(count).map(sheet).collect()
    };
    (0..=6).map(|count| run(&format!("{} arguments", count), sheets(count))).collect()
}

const EVENING: &str = "FRESH,8,2,1 LOAD,DRIVE,10 LOAD,LOG,50 RU,DRIVE EXEC,4,4,0 EXEC,10,LOG \
                       EXEC,7 EXEC,4,3,0 GO,DRIVE EXEC,5,2,2";

fn seven_or_one() -> Run {
    let first = page(EVENING);
    let (one, seven) = (b"EXEC,12,LOG,3,0,1\n", b"EXEC,12,LOG,3,0,7\n");
    let next = next_page(&first, seven);
    let rest: [(&[u8], &[u8]); 4] =
        [(seven, &next), (b"", &first), (one, &next), (&seven[..seven.len() - 1], &next)];
    steps("the seven and the one", &first, &rest)
}

/// Each page but one is what its requests lead to from the page before it, not from what the
/// requests led to there.
fn given_outranks() -> Run {
    let first = page(EVENING);
    let strange = page("FRESH,3,0,0 LOAD,OTHER,7 TICK");
    let second = next_page(&strange, b"TICK\nRU,OTHER");
    let third = next_page(&second, b"EXEC,4,1,0");
    let rest: [(&[u8], &[u8]); 3] =
        [(b"TICK\n", &strange), (b"TICK\nRU,OTHER", &second), (b"EXEC,4,1,0", &third)];
    steps("the page given outranks what is computed", &first, &rest)
}

/// Pages and what is none in turn.
fn gone_and_back() -> Run {
    let [one, two] = ["", "TICK"].map(page);
    let cut = &two[..two.len() - 1];
    let tick = b"TICK\n";
    let mut all = steps(
        "pages that are none between others",
        &one,
        &[(tick, cut), (tick, &two), (b"", &two), (tick, b""), (tick, cut), (tick, &one)],
    );
    // The requests of a step without a first page are not looked for.
    let (place, last) = (3, all.sheets.len() - 2);
    for place in [place, last] {
        all.sheets[place].content = Content::Missing;
    }
    let more = [Sheet::text("7.requests", tick), Sheet::text("8.page", &two)];
    all.sheets.extend(more);
    all
}

/// Each answer that a line can get, some at the first line, some at the last, and all 32 records.
fn all_refusals() -> Run {
    let all: String = (1..=32).map(|k| format!(" LOAD,P{},10", k)).collect();
    let first = page(&format!("FRESH,4,1,1{}", all));
    let asked = b"EXEC,6\nLOAD,P1,32768\nRU,NONE\nSS,P1\nLOAD,P1,1\nLOAD,NEW,1\nRU,P1\n\
                  EXEC,4,4,1\nEXEC,4,4,0\nRU,P2\nEXEC,5,1,1\nRN,LOCK,1,0\nTOCK\nEXEC,9,P3\nTICK";
    let next = next_page(&first, asked);
    let text = String::from_utf8_lossy(&page("")).replace("clock=0", "clock=1000000000000");
    let ceiling = text.into_bytes();
    let busy = page("FRESH,2,0,1 LOAD,A,1 LOAD,B,2 RU,A RN,ALLOC,G,0 RN,LOCK,1,0 EXEC,7 RU,B");
    let locked = next_page(&busy, b"RN,CLEAR,1\nRN,LOCK,1,1\nRN,FREE,1\nRN,LOCK,1,0\n");
    let rest: [(&[u8], &[u8]); 5] = [
        (asked, &next),
        (b"RU,NONE", &ceiling),
        (b"TICK\nTICK\nPAGE", &ceiling),
        (b"FRESH,0,0,0\n", &busy),
        (b"RN,CLEAR,1\nRN,LOCK,1,1\nRN,FREE,1\nRN,LOCK,1,0\n", &locked),
    ];
    steps("every answer of a line", &first, &rest)
}

/// The same page again: after no request, after some that change nothing, and by its own name.
fn nothing_changed() -> Run {
    let page = EXAMPLE.as_bytes();
    let refused = b"PAGE\n\nRU,NONE\nEXEC,11\nFRESH,257,0,0\nPAGE\nPR,A,0\nEXEC,11\nx";
    let rest: [(&[u8], &[u8]); 3] = [(b"", page), (refused, page), (b"\n\n", page)];
    let mut all = steps("nothing changed", page, &rest);
    let same = Sheet::text("1.page", page);
    all.sheets[2] = same.clone();
    all.sheets.extend([Sheet::text("1.requests", b""), same]);
    all
}

/// Pages with lines more and fewer, in the middle and at the end, and one with every line another.
fn more_and_fewer() -> Run {
    let held = "FRESH,9,0,4 LOAD,A,1 LOAD,B,2 LOAD,C,3 RU,A EXEC,4,5,0 RN,ALLOC,L,0";
    let all = [
        page(held),
        page(&format!("{} OF,B,8", held)),
        page(&format!("{} OF,C,8", held)),
        page(&format!("{} EXEC,5,1,2", held)),
        page(&format!("{} EXEC,15,1,0 EXEC,4,1,0", held)),
        page(&format!("{} RN,ALLOC,G,0", held)),
        page(&format!("{} RN,FREE,1", held)),
        page("FRESH,5,5,0"),
        EXAMPLE.as_bytes().to_vec(),
        largest(),
        page("LOAD,A,1"),
        largest(),
    ];
    let mut rest: Vec<(&[u8], &[u8])> = Vec::new();
    for next in &all[1..] {
        rest.extend([(&b""[..], &next[..]), (b"", &all[0])]);
    }
    rest.push((b"OF,C,8\nEXEC,5,1,4\nRN,FREE,1", &all[9]));
    steps("lines more and fewer", &all[0], &rest)
}

/// 32 programs with timers, and every track a run by itself.
fn largest() -> Vec<u8> {
    let mut script = String::from("FRESH,256,0,16");
    for k in 10..=41 {
        script += &format!(" LOAD,PRO{},32767 RU,PRO{} EXEC,12,PRO{},4,4095,4095", k, k, k);
    }
    for _ in 0..128 {
        script += " EXEC,4,1,1 EXEC,15,1,1";
    }
    script += &" RN,ALLOC,G,1".repeat(16);
    page(&script)
}

/// Who waits is marked, keeps the mark, wakes to chain 6 or ends; pages on which the mark is
/// missing, is one too many, or stands at another program, which the desk does not list.
fn marks() -> Run {
    let start =
        "FRESH,4,1,2 LOAD,A,10 LOAD,B,10 LOAD,C,10 LOAD,D,10 RU,A RN,ALLOC,L,0 RN,LOCK,1,0 \
                 EXEC,4,3,0 RU,B RU,C RU,D PR,A,10 EXEC,4,1,0 RN,LOCK,1,0 EXEC,4,2,0";
    let waiting = |more: &str| page(&format!("{} {}", start, more));
    let [none, second, third] = ["", "SS,B", "SS,C"].map(waiting);
    let [both, all] = ["SS,B SS,C", "SS,B SS,C SS,D"].map(waiting);
    let kept = b"SS,B\nSS,B\nGO,B\nRU,B\nPR,B,10\nEXEC,12,B,1,0,1\nTICK\nSS,A\nSS,A\nGO,A\n";
    let wakes = b"EXEC,5,1,1\nRN,FREE,1\nGO,B\nSS,NONE\n";
    let ends = b"OF,B,1\nOF,C,8\nLOAD,NEW,10\nRU,B\nEXEC,6\n";
    let after = [&kept[..], wakes, ends].map(|asked| next_page(&all, asked));
    let rest: [(&[u8], &[u8]); 16] = [
        (b"SS,B", &second),
        (b"", &third),
        (b"SS,B", &both),
        (b"", &second),
        (b"SS,D", &all),
        (b"", &none),
        (b"SS,B\nSS,C", &third),
        (b"SS,D", &all),
        (kept, &after[0]),
        (b"", &all),
        (wakes, &after[1]),
        (b"", &all),
        (ends, &after[2]),
        (b"", &all),
        (wakes, &after[2]),
        (b"SS,B\nSS,NEW", &none),
    ];
    steps("marks of those who wait", &none, &rest)
}

/// Many ticks at once, from an evening to the ceiling; pages whose clock is one tick short, on which a
/// due has not moved on, or who was started last stands first.
fn many_ticks() -> Run {
    let first = page(&format!("{} EXEC,12,LOG,2,10,7 LOAD,NIGHT,50 EXEC,12,NIGHT,3,0,1", EVENING));
    let night = b"TICK,699\nTICK,1\nTICK,0\nTICK,\nTICK,01\nTICK,1,2\nTICK,100000001\nPAGE\n\
                  TICK,6000\nEXEC,11\nTICK,100000000\nEXEC,11";
    let after = next_page(&first, night);
    let other = |from: &str, to: &str| String::from_utf8_lossy(&after).replace(from, to);
    let short = other("clock=100006700", "clock=100006699").into_bytes();
    let stayed = other("due=100007700", "due=100006800").into_bytes();
    let turned = other("chain1=1,2,3", "chain1=1,3,2").into_bytes();
    let text = String::from_utf8_lossy(&page("LOAD,A,1")).to_string();
    let near = |clock: &str| text.replace("clock=0", &format!("clock={}", clock)).into_bytes();
    let [before, ceiling] = ["999999999600", "1000000000000"].map(near);
    let last =
        b"TICK,401\nTICK,100000000\nTICK,0\nTICK,400\nTICK,1\nTICK\nTICK,0\nTICK,100000001\n";
    let rest: [(&[u8], &[u8]); 9] = [
        (night, &after),
        (b"", &short),
        (b"TICK,1", &after),
        (b"", &stayed),
        (b"", &after),
        (b"", &turned),
        (b"", &before),
        (last, &ceiling),
        (b"TICK,1\nTICK,99999999\nPAGE", &ceiling),
    ];
    steps("many ticks at once", &first, &rest)
}

/// The last day of a leap year and of a century that is none; pages of another start year, and without
/// one; and FRESH among the requests, with a year and without one.
fn years() -> Run {
    let text = |year: u64| {
        let page = page(&format!("FRESH,4,1,1,{} LOAD,A,10 RU,A", year));
        String::from_utf8_lossy(&page).to_string()
    };
    let at = |text: String, clock: u64| text.replace("clock=0", &format!("clock={}", clock));
    let last = at(text(1976), 3_153_599_999).into_bytes();
    let asked = b"EXEC,11\nTICK\nEXEC,11\nTICK,8639999\nEXEC,11\nTICK,1\nEXEC,11\nPAGE";
    let after = next_page(&last, asked);
    let moved = String::from_utf8_lossy(&after).replace("year=1976", "year=1977").into_bytes();
    let without = String::from_utf8_lossy(&after).replace("year=1976\n", "").into_bytes();
    // 2100 has no day 366.
    let century = at(text(2099), (365 + 365) * 8_640_000 - 1).into_bytes();
    let turned = next_page(&century, asked);
    let ceiling = at(text(2099), 1_000_000_000_000).into_bytes();
    let again = b"FRESH,4,1,1\nFRESH,4,1,1,1969\nFRESH,4,1,1,\nLOAD,A,10\nRU,A\nEXEC,11\nPAGE";
    let usual = next_page(&last, again);
    let with = b"FRESH,4,1,1,2000\nFRESH,4,1,1,2100\nLOAD,A,10\nRU,A\nEXEC,11\nPAGE";
    let other = next_page(&last, with);
    let rest: [(&[u8], &[u8]); 13] = [
        (asked, &after),
        (b"", &moved),
        (b"", &after),
        (b"", &without),
        (b"EXEC,11", &after),
        (b"", &century),
        (asked, &turned),
        (b"EXEC,11", &ceiling),
        (b"EXEC,11\nTICK\nPAGE", &ceiling),
        (again, &usual),
        (with, &other),
        (again, &other),
        (with, &usual),
    ];
    steps("years", &last, &rest)
}

/// The longest page there is, asked for among requests.
fn longest_page() -> Run {
    let page = make::largest().engine().expect("sound tables").page_bytes();
    let next = next_page(&page, b"PR,WAITA,1");
    let asked = b"PAGE\nSS,WAITA\nGO,WAITA\nTICK\nTICK,1\nPAGE";
    steps("the longest page", &page, &[(asked, &page), (b"PR,WAITA,1\nPAGE", &next)])
}

/// Requests that cannot be read, before pages that can.
fn unread_requests() -> Run {
    let [one, two] = ["", "TICK"].map(page);
    let contents = [
        Content::Missing,
        Content::Directory,
        Content::Forbidden(b"TICK\n".to_vec()),
        Content::BelowFile,
        Content::LongName,
    ];
    let mut sheets = vec![Sheet::text("1.page", &one)];
    for (place, content) in contents.into_iter().enumerate() {
        sheets.push(Sheet::new(&format!("{}.requests", place + 1), content));
        sheets.push(Sheet::text(&format!("{}.page", place + 2), [&one, &two][place % 2]));
    }
    sheets.push(Sheet::new("empty", Content::Missing));
    sheets.push(Sheet::new("none.page", Content::Directory));
    run("requests that cannot be read", sheets)
}

/// Every byte that a name can have, and a name of the length that it can have.
fn strange_names() -> Run {
    let every: Vec<u8> = (1..=255).filter(|byte| *byte != b'/').collect();
    let [one, two] = ["", "TICK"].map(page);
    let named = |name: &[u8], content: Content| Sheet { name: name.to_vec(), content };
    let text = |text: &[u8]| Content::Text(text.to_vec());
    let sheets = vec![
        named(&every, text(&one)),
        named(b"\x01\x1f \x7e\x7f\x80\xff", text(b"TICK")),
        named(&[b'x'; 255], text(&two)),
        named(b"a\nb", Content::Missing),
        named("\u{e9}\t.page".as_bytes(), text(&one)),
        named(b"-- *'\"\\", text(b"TOCK")),
        named(b"answer=0,value=0", text(b"x")),
        named(b"\x1b[31m", text(b"")),
        named(b"\r", Content::Missing),
    ];
    run("names of any bytes", sheets)
}

/// What is no page, alone, and all of them after one another.
fn no_pages() -> Vec<Run> {
    let good = page("FRESH,8,2,1 LOAD,A,10");
    let text = String::from_utf8_lossy(&good).to_string();
    let other = |old: &str, new: &str| Content::Text(text.replace(old, new).into_bytes());
    let padded = |size: usize, filler: u8| {
        let mut page = good.clone();
        page.resize(size, filler);
        Content::Text(page)
    };
    let all = vec![
        Content::Text(Vec::new()),
        Content::Text(b"\n".to_vec()),
        Content::Text(b"page=rte2".to_vec()),
        Content::Text(b"page=rte2\n".to_vec()),
        other("end=page\n", ""),
        other("end=page\n", "end=page"),
        other("end=page\n", "end=page\n\n"),
        other("end=page\n", "end=page\nmore"),
        other("priority=10", "priority=32768"),
        other("priority=10", "priority=0\u{e9}\t\r"),
        other("programs=1", "programs=9999999999999"),
        padded(65_535, b'x'),
        padded(65_536, b'\n'),
        padded(65_536, b'x'),
        padded(65_537, b'\n'),
        padded(65_537, b'x'),
        padded(5_000_000, 0xff),
        Content::Text(vec![b'a'; 65_536]),
        Content::Text(vec![b'\n'; 65_536]),
        Content::Missing,
        Content::Directory,
        Content::Forbidden(good.clone()),
        Content::BelowFile,
        Content::LongName,
    ];
    let mut runs = Vec::new();
    let mut after_another = vec![Sheet::text("first", &good)];
    for (place, content) in all.into_iter().enumerate() {
        let name = format!("{}.page", place + 1);
        let what = format!("what is no page, number {}", place + 1);
        let sheet = Sheet::new(&name, content);
        after_another.extend([Sheet::text("requests", b"TICK"), sheet.clone()]);
        runs.push(run(&what, vec![sheet]));
    }
    after_another.extend([Sheet::text("requests", b"TICK"), Sheet::text("first", &good)]);
    runs.push(run("what is no page, one after another", after_another));
    runs
}

/// Every byte alone, in a line and at its end; every length up to 150; long lines.
fn lines_shown() -> Run {
    let mut bytes = Vec::new();
    for byte in (0..=255).filter(|byte| *byte != b'\n') {
        bytes.extend([byte, b'\n']);
        bytes.extend([b"TICK" as &[u8], &[byte], b"\nRU,", &[byte], b"NO\n"].concat());
    }
    let mut lengths = Vec::new();
    for size in (0..=150).chain([255, 256, 257, 4_095, 4_096, 4_097, 65_536, 100_000]) {
        lengths.extend((0..size).map(|place| b'A' + (place % 26) as u8));
        lengths.extend(b"\nTICK\n");
        lengths.extend(vec![0xff; size]);
        lengths.push(b'\n');
    }
    // The last is long, and no byte 10 ends it.
    lengths.extend([b' '; 1_000]);
    let first = page(EVENING);
    let second = next_page(&first, &bytes);
    let third = next_page(&second, &lengths);
    let fourth = next_page(&third, b"TICK");
    let rest: [(&[u8], &[u8]); 3] = [(&bytes, &second), (&lengths, &third), (b"TICK\n", &fourth)];
    steps("every byte and every length of a line", &first, &rest)
}

/// Sizes of files, beside those of the blocks in which a program may read them.
const SIZES: [usize; 10] =
    [1, 4_095, 4_096, 4_097, 8_192, 65_535, 65_536, 65_537, 131_072, 131_073];

fn long_files_of_requests() -> Run {
    let mut pages = vec![page(EVENING)];
    let mut requests: Vec<Vec<u8>> = Vec::new();
    for size in SIZES {
        let line = |number: usize| match number % 7 {
            0 => vec![b'y'; 60 + number / 7 % 20],
            3 => format!("PR,LOG,{}", number % 90 + 1).into_bytes(),
            _ => b"TICK".to_vec(),
        };
        let text = (0..).flat_map(|number| [&line(number), &b"\n"[..]].concat());
        requests.push(text.take(size).collect());
        let next = next_page(&pages[pages.len() - 1], &requests[requests.len() - 1]);
        pages.push(next);
    }
    let rest: Vec<(&[u8], &[u8])> =
        requests.iter().zip(&pages[1..]).map(|(text, next)| (&text[..], &next[..])).collect();
    steps("long files of requests", &pages[0], &rest)
}

/// More lines than 16 bits count.
fn many_lines() -> Run {
    let first = page("LOAD,A,1");
    let requests = b"TICK\n".repeat(66_000);
    let next = next_page(&first, &requests);
    steps("many lines", &first, &[(&requests, &next), (b"TICK", &first)])
}
