//! A page read back: what is accepted, and each refusal with its value. The pages are put by hand.

use engine::raw::{Raw, RawWhy, GLOBAL, LINKS, SYSTEM};
use engine::{read, Answer, Engine};

/// Every key and every kind of why.
const PAGE: &str = "page=rte2
clock=7
tracks=9
system=1
numbers=3
programs=5
id=1
name=A
priority=10
state=1
why=-
due=-
interval=-
id=2
name=WHZAT
priority=10
state=3
why=son:1
due=8
interval=0
id=3
name=C3
priority=9
state=3
why=lock:2
due=100
interval=17
suspend=1
id=17
name=D
priority=0
state=5
why=tracks:9
due=-
interval=-
suspend=1
id=32
name=E
priority=32767
state=3
why=number
due=-
interval=-
chain1=1
chain3=3,2,32
chain5=17
chain6=
held=1-3:17
held=4-4:global
held=7-8:17
number=1:global:-
number=3:2:32
end=page
";

/// The page of T=1, S=0, R=0.
const SMALLEST: &str = "page=rte2\nclock=0\ntracks=1\nsystem=0\nnumbers=0\nprograms=0\n\
                        chain1=\nchain3=\nchain5=\nchain6=\nend=page\n";

/// None where the page is read, else the value of the refusal.
fn refusal(page: impl AsRef<[u8]>) -> Option<u64> {
    let page = page.as_ref();
    let (tables, answer) = read(page);
    if answer == Answer::new(0, 0) {
        // Writing what was read gives the page.
        let engine = tables.engine().expect("tables that were read are sound");
        assert!(engine.page_bytes() == page);
        assert_eq!(Raw::of(&engine), tables);
        return None;
    }
    assert_eq!(answer.number, 15);
    assert_eq!(tables, Raw::of(&Engine::smallest()));
    match answer.value {
        engine::Value::Number(value) => Some(value),
        engine::Value::Time(_) => panic!("no time was asked"),
    }
}

fn lines() -> Vec<String> {
    PAGE.lines().map(String::from).collect()
}

fn joined(lines: &[String]) -> String {
    lines.iter().map(|line| line.clone() + "\n").collect()
}

/// The number of the first line that is this one.
fn place(line: &str) -> usize {
    lines().iter().position(|one| one == line).unwrap_or_else(|| panic!("no {}", line)) + 1
}

/// The page with another line, or other lines, in the place of this one.
fn with(old: &str, new: &str) -> String {
    let mut lines = lines();
    lines[place(old) - 1] = new.to_string();
    joined(&lines)
}

/// Well formed, yet no sound tables write it.
fn unsound(old: &str, new: &str) {
    assert_eq!(refusal(with(old, new)), Some(0), "{} for {}", new, old);
}

/// Not well formed at that line.
fn ill_formed(old: &str, new: &str) {
    assert_eq!(refusal(with(old, new)), Some(place(old) as u64), "{:?} for {}", new, old);
}

/// Read, as other tables.
fn other(old: &str, new: &str) {
    let page = with(old, new);
    assert_eq!(refusal(&page), None, "{} for {}", new, old);
    assert_ne!(read(page.as_bytes()).0, read(PAGE.as_bytes()).0);
}

#[test]
fn what_is_read() {
    let (raw, answer) = read(PAGE.as_bytes());
    assert_eq!(answer, Answer::new(0, 0));
    assert_eq!((raw.clock, raw.t, raw.s, raw.r), (7, 9, 1, 3));
    assert_eq!(raw.tracks[..10], [SYSTEM, 17, 17, 17, GLOBAL, 0, 0, 17, 17, 0]);
    let numbers: Vec<_> = raw.numbers[..4].iter().map(|n| (n.owner, n.lock)).collect();
    assert_eq!(numbers, [(GLOBAL, 0), (0, 0), (2, 32), (0, 0)]);
    assert_eq!((raw.links[1], raw.links[3], raw.links[5], raw.links[6]), (1, 3, 17, 0));
    assert_eq!([1, 2, 3, 17, 32].map(|p| raw.links[LINKS + p]), [0, 32, 2, 0, 0]);
    let used: Vec<usize> = (1..=32).filter(|p| raw.records[p - 1].used).collect();
    assert_eq!(used, [1, 2, 3, 17, 32]);
    let third = raw.records[2];
    assert_eq!((&third.name, third.priority, third.state), (b"C3   ", 9, 3));
    assert_eq!((third.why, third.due, third.interval), (RawWhy::Lock(2), 100, 17));
    let whys = [1, 2, 17, 32].map(|p| raw.records[p - 1].why);
    assert_eq!(whys, [RawWhy::Nothing, RawWhy::Son(1), RawWhy::Tracks(9), RawWhy::Number]);
    assert_eq!((raw.records[1].due, raw.records[1].interval), (8, 0));
}

#[test]
fn there_and_back() {
    assert_eq!(refusal(PAGE), None);
    assert_eq!(refusal(SMALLEST), None);
    for (t, s, r) in [(1, 1, 0), (256, 0, 16), (256, 256, 16), (40, 39, 1)] {
        let (engine, _) = Engine::fresh(t, s, r, 1975);
        let page = engine.page_bytes();
        assert_eq!(refusal(&page), None);
        assert_eq!(read(&page).0, Raw::of(&engine));
    }
    let mut engine = Engine::smallest();
    for line in ["FRESH,4,1,1", "LOAD,WHZAT,10", "RU,WHZAT", "EXEC,4,2,0", "EXEC,12,WHZAT,1,2,3"] {
        engine.line(line.as_bytes(), &mut []);
        let page = engine.page_bytes();
        assert_eq!(refusal(&page), None);
        assert_eq!(read(&page).0, Raw::of(&engine));
    }
}

/// What may change on a page, and bounds that are reached.
#[test]
fn other_tables() {
    other("clock=7", "clock=0");
    other("tracks=9", "tracks=256");
    other("system=1", "system=0");
    other("numbers=3", "numbers=16");
    other("name=A", "name=A0Z9B");
    other("priority=32767", "priority=10");
    other("why=son:1", "why=number");
    other("why=son:1", "why=lock:3");
    other("why=tracks:9", "why=tracks:1");
    other("due=8", "due=1474200007");
    other("interval=0", "interval=1474200000");
    other("held=4-4:global", "held=4-5:global");
    other("held=4-4:global", "held=4-6:32");
    other("held=7-8:17", "held=6-6:2\nheld=7-8:17");
    other("number=1:global:-", "number=1:32:1");
    other("number=1:global:-", "number=2:global:-");
}

#[test]
fn sizes() {
    unsound("clock=7", "clock=8");
    unsound("clock=7", "clock=1000000000001");
    unsound("clock=7", "clock=9999999999999");
    unsound("tracks=9", "tracks=0");
    unsound("tracks=9", "tracks=8");
    unsound("tracks=9", "tracks=257");
    unsound("tracks=9", "tracks=9999999999999");
    unsound("system=1", "system=2");
    unsound("system=1", "system=10");
    unsound("system=1", "system=9999999999999");
    unsound("numbers=3", "numbers=2");
    unsound("numbers=3", "numbers=17");
    unsound("numbers=3", "numbers=9999999999999");
    let ceiling = SMALLEST.replace("clock=0", "clock=1000000000000");
    assert_eq!(refusal(ceiling), None);
    assert_eq!(refusal(SMALLEST.replace("tracks=1", "tracks=0")), Some(0));
    assert_eq!(refusal(SMALLEST.replace("system=0", "system=1")), None);
    assert_eq!(refusal(SMALLEST.replace("system=0", "system=2")), Some(0));
}

#[test]
fn records() {
    unsound("id=1", "id=0");
    unsound("id=1", "id=2");
    unsound("id=2", "id=1");
    unsound("id=3", "id=18");
    unsound("id=32", "id=33");
    unsound("id=32", "id=17");
    unsound("id=32", "id=9999999999999");
    // In 5 and in 32 bits these would be ids that rise.
    unsound("id=32", "id=64");
    unsound("id=32", "id=4294967328");
    unsound("name=E", "name=D");
    unsound("name=E", "name=WHZAT");
    unsound("priority=32767", "priority=32768");
    unsound("priority=32767", "priority=9999999999999");
    for state in ["0", "2", "3", "4", "5", "6", "7", "256", "257", "9999999999999"] {
        unsound("state=1", &format!("state={}", state));
    }
    for why in ["number", "lock:1", "son:2", "tracks:1"] {
        unsound("why=-", &format!("why={}", why));
    }
    for why in ["-", "son:0", "son:2", "son:4", "son:33", "son:257", "lock:0", "lock:4", "tracks:1"]
    {
        unsound("why=son:1", &format!("why={}", why));
    }
    for why in ["-", "number", "lock:1", "tracks:0", "tracks:10", "tracks:9999999999999"] {
        unsound("why=tracks:9", &format!("why={}", why));
    }
    // Two that wait for one son.
    unsound("why=number", "why=son:1");
}

#[test]
fn timers() {
    unsound("due=8", "due=7");
    unsound("due=8", "due=0");
    unsound("due=8", "due=-");
    unsound("due=8", "due=1474200008");
    unsound("due=8", "due=9999999999999");
    unsound("interval=0", "interval=-");
    unsound("interval=17", "interval=1474200001");
    unsound("due=-", "due=9");
    unsound("interval=-", "interval=0");
    // No timer is told by dashes.
    let none = PAGE.replacen("due=-\ninterval=-", "due=0\ninterval=0", 1);
    assert_eq!(refusal(none), Some(0));
    let some = PAGE.replacen("due=-\ninterval=-", "due=8\ninterval=1", 1);
    assert_eq!(refusal(some), None);
}

#[test]
fn chains() {
    for chain in ["", "0", "2", "32", "33", "1,1", "1,2", "257", "4294967297", "4"] {
        unsound("chain1=1", &format!("chain1={}", chain));
    }
    // Equals may stand in any order, but priorities never fall.
    let equals = PAGE.replace("priority=9\n", "priority=10\n");
    assert_eq!(refusal(&equals), None);
    assert_eq!(refusal(equals.replace("chain3=3,2,32", "chain3=2,3,32")), None);
    for chain in ["2,3,32", "3,32,2", "3,2", "3,2,32,32", "3,2,32,3", "3,2,2,32", "3,2,32,0"] {
        unsound("chain3=3,2,32", &format!("chain3={}", chain));
    }
    unsound("chain6=", "chain6=1");
    unsound("chain6=", "chain6=17");
    assert_eq!(
        refusal(PAGE.replace("chain1=1\n", "chain1=\n").replace("chain6=", "chain6=1")),
        Some(0)
    );
}

#[test]
fn held_runs() {
    // Not the longest.
    unsound("held=1-3:17", "held=1-1:17\nheld=2-3:17");
    unsound("held=1-3:17", "held=1-2:17\nheld=3-3:17");
    unsound("held=4-4:global", "held=4-4:global\nheld=5-5:global");
    other("held=1-3:17", "held=1-1:17\nheld=3-3:17");
    let parts = SMALLEST.replace("tracks=1", "tracks=4");
    for first in 0..3 {
        let held = format!("held=0-{}:global\nheld={}-3:global\nend=page", first, first + 1);
        assert_eq!(refusal(parts.replace("end=page", &held)), Some(0));
    }
    // Downward, out of order, over each other.
    unsound("held=1-3:17", "held=3-1:17");
    unsound("held=4-4:global", "held=5-4:global");
    unsound("held=4-4:global", "held=3-4:global");
    unsound("held=4-4:global", "held=0-0:global");
    unsound("held=4-4:global", "held=4-7:global");
    unsound("held=4-4:global", "held=4-4:global\nheld=4-4:global");
    unsound("held=7-8:17", "held=7-8:17\nheld=5-5:global");
    // The system's, behind the last track, and those of nobody.
    unsound("held=1-3:17", "held=0-3:17");
    unsound("held=7-8:17", "held=7-9:17");
    unsound("held=7-8:17", "held=7-9999999999999:17");
    unsound("held=7-8:17", "held=7-256:17");
    unsound("held=7-8:17", "held=4294967303-4294967304:17");
    for holder in ["0", "4", "31", "33", "34", "255", "257", "273", "9999999999999"] {
        unsound("held=7-8:17", &format!("held=7-8:{}", holder));
    }
    let all = SMALLEST.replace("chain6=\n", "chain6=\nheld=0-0:global\n");
    assert_eq!(refusal(&all), None);
    assert_eq!(refusal(all.replace("tracks=1", "tracks=256").replace("0-0", "255-255")), None);
    assert_eq!(refusal(all.replace("tracks=1", "tracks=256").replace("0-0", "0-255")), None);
    assert_eq!(refusal(all.replace("tracks=1", "tracks=256").replace("0-0", "0-256")), Some(0));
    assert_eq!(refusal(all.replace("system=0", "system=1")), Some(0));
}

#[test]
fn numbers() {
    unsound("number=1:global:-", "number=3:global:-");
    unsound("number=1:global:-", "number=0:global:-");
    unsound("number=3:2:32", "number=1:2:32");
    unsound("number=3:2:32", "number=4:2:32");
    unsound("number=3:2:32", "number=17:2:32");
    unsound("number=3:2:32", "number=259:2:32");
    unsound("number=3:2:32", "number=3:2:32\nnumber=2:2:32");
    unsound("number=3:2:32", "number=3:2:32\nnumber=3:2:32");
    for owner in ["0", "4", "33", "34", "258", "9999999999999"] {
        unsound("number=3:2:32", &format!("number=3:{}:32", owner));
    }
    for lock in ["0", "4", "33", "34", "288", "9999999999999"] {
        unsound("number=3:2:32", &format!("number=3:2:{}", lock));
    }
    unsound("number=1:global:-", "number=1:0:0");
    let sixteen = with("number=3:2:32", "number=16:2:32");
    assert_eq!(refusal(sixteen.replace("numbers=3", "numbers=16")), None);
}

/// What is shape and what is not: the close calls.
#[test]
fn close_calls() {
    for name in ["1ABC", "abc", "", "ABCDEF", "A ", " A", "A B", "A-", "Ab", "[", "A[", "@", "A\0"]
    {
        ill_formed("name=A", &format!("name={}", name));
    }
    unsound("state=1", "state=7");
    unsound("state=1", "state=2");
    unsound("tracks=9", "tracks=0");
    unsound("why=tracks:9", "why=tracks:0");
    unsound("held=7-8:17", "held=5-3:1");
    unsound("held=1-3:17", "held=0-0:0");
    unsound("number=1:global:-", "number=1:0:0");
    unsound("clock=7", "clock=1000000000001");
    for word in ["rte3", "rte", "rte22", "RTE2", "", " rte2", "rte2 "] {
        ill_formed("page=rte2", &format!("page={}", word));
    }
    for word in ["pag", "pages", "PAGE", "", "page=", "page "] {
        ill_formed("end=page", &format!("end={}", word));
    }
    // Keys of later requests.
    for line in ["chain4=", "class=1", "mail=1:0", "mail=1:"] {
        ill_formed("tracks=9", &format!("{}\ntracks=9", line));
        ill_formed("chain1=1", &format!("{}\nchain1=1", line));
        ill_formed("end=page", &format!("{}\nend=page", line));
    }
    // CR LF: the first line.
    assert_eq!(refusal(PAGE.replace('\n', "\r\n")), Some(1));
}

#[test]
fn numbers_in_shape() {
    for number in
        ["", "01", "00", "+1", "-1", "1 ", " 1", "1a", "1,1", "0x1", "1.", "-", "1\r", "\u{661}"]
    {
        ill_formed("clock=7", &format!("clock={}", number));
        ill_formed("programs=5", &format!("programs={}", number));
        ill_formed("id=3", &format!("id={}", number));
        ill_formed("priority=9", &format!("priority={}", number));
        ill_formed("why=tracks:9", &format!("why=tracks:{}", number));
        ill_formed("why=son:1", &format!("why=son:{}", number));
        ill_formed("why=lock:2", &format!("why=lock:{}", number));
        ill_formed("held=7-8:17", &format!("held={}-8:17", number));
        ill_formed("held=7-8:17", &format!("held=7-{}:17", number));
        ill_formed("held=7-8:17", &format!("held=7-8:{}", number));
        ill_formed("number=3:2:32", &format!("number={}:2:32", number));
        ill_formed("number=3:2:32", &format!("number=3:{}:32", number));
        if number != "-" {
            ill_formed("number=3:2:32", &format!("number=3:2:{}", number));
            ill_formed("due=8", &format!("due={}", number));
            ill_formed("interval=17", &format!("interval={}", number));
        }
        if !number.is_empty() && number != "1,1" {
            ill_formed("chain5=17", &format!("chain5={}", number));
        }
        if number != "1,1" {
            ill_formed("chain5=17", &format!("chain5=17,{}", number));
        }
    }
    // Thirteen digits are a number, fourteen are none.
    for key in ["clock", "tracks", "system", "numbers"] {
        let old = lines().into_iter().find(|line| line.starts_with(key)).expect("a line");
        unsound(&old, &format!("{}=1234567890123", key));
        ill_formed(&old, &format!("{}=12345678901234", key));
        ill_formed(&old, &format!("{}=10000000000000", key));
        ill_formed(&old, &format!("{}=00000000000001", key));
        ill_formed(&old, &format!("{}={}", key, "9".repeat(100)));
    }
}

#[test]
fn fields_in_shape() {
    for why in [
        "",
        "tracks",
        "tracks:",
        "tracks:-",
        "son",
        "lock:",
        "number:1",
        "numbers",
        "Number",
        "--",
        "-:1",
        "tracks:1:1",
        "tracks=1",
        "room:1",
        "mail:1",
        ":1",
        "son:1 ",
        "track:1",
        "trackss:1",
    ] {
        ill_formed("why=number", &format!("why={}", why));
    }
    for dash in ["", "--", "- ", "global", "-0", "0-"] {
        ill_formed("due=8", &format!("due={}", dash));
        ill_formed("interval=17", &format!("interval={}", dash));
    }
    for chain in [",", "17,", ",17", "17,,17", "17 ,17", "-", "17;1", "global", "17:1", "17, 1"] {
        ill_formed("chain5=17", &format!("chain5={}", chain));
        ill_formed("chain6=", &format!("chain6={}", chain));
    }
    for run in [
        "",
        "7",
        "7-8",
        "7:17",
        "7-8:",
        "-8:17",
        "7-:17",
        "7-8:-",
        "7-8:GLOBAL",
        "7-8:globals",
        "7-8:17:1",
        "7-8-9:17",
        "7--8:17",
        "7-8 :17",
        "7:8-17",
        "7-8:system",
        "7-8:free",
        "global",
        "7,8:17",
        "7-8;17",
    ] {
        ill_formed("held=7-8:17", &format!("held={}", run));
    }
    for number in [
        "",
        "3",
        "3:2",
        "3:2:",
        ":2:32",
        "3::32",
        "3:2:global",
        "3:-:32",
        "3:GLOBAL:-",
        "3:2:32:1",
        "3:2:--",
        "3-2:32",
        "3:2-32",
        "3:global",
        "3:2:-:",
        "global:2:-",
        "-:2:-",
    ] {
        ill_formed("number=3:2:32", &format!("number={}", number));
    }
    for line in
        ["", "clock", "clock7", "=7", "clock:7", "Clock=7", "clock =7", " clock=7", "cloc=7"]
    {
        ill_formed("clock=7", line);
    }
    ill_formed("clock=7", "clock==7");
    ill_formed("clock=7", "clocks=7");
}

/// The mark of request (ii): behind the interval of a record, and nowhere else.
#[test]
fn marks() {
    let (raw, _) = read(PAGE.as_bytes());
    let marked: Vec<usize> = (1..=32).filter(|p| raw.records[p - 1].suspend).collect();
    assert_eq!(marked, [3, 17]);
    // Of those who wait, any may have it.
    let fewer = PAGE.replacen("suspend=1\n", "", 1);
    assert_eq!(refusal(&fewer), None);
    assert_ne!(read(fewer.as_bytes()).0, raw);
    other("interval=0", "interval=0\nsuspend=1");
    other("chain1=1", "suspend=1\nchain1=1");
    // Well formed, but no sound tables write it: of one that is scheduled, suspended or dormant.
    unsound("id=2", "suspend=1\nid=2");
    let suspended = PAGE.replacen("state=1", "state=6", 1).replacen("chain1=1", "chain1=", 1);
    let suspended = suspended.replacen("chain6=", "chain6=1", 1);
    assert_eq!(refusal(&suspended), None);
    assert_eq!(refusal(suspended.replacen("id=2", "suspend=1\nid=2", 1)), Some(0));
    let dormant = SMALLEST.replacen("programs=0\n", &("programs=1\n".to_string() + &record(1)), 1);
    assert_eq!(refusal(&dormant), None);
    assert_eq!(refusal(dormant.replacen("chain1", "suspend=1\nchain1", 1)), Some(0));
    // Another value.
    for value in
        ["0", "2", "3", "9", "11", "10", "01", "00", "-", "", "+1", "1 ", " 1", "1:1", "true"]
    {
        ill_formed("suspend=1", &format!("suspend={}", value));
        ill_formed("chain1=1", &format!("suspend={}\nchain1=1", value));
    }
    for line in ["suspend", "suspend1", "suspend==1", "Suspend=1", " suspend=1", "suspends=1"] {
        ill_formed("suspend=1", line);
    }
    // A second one, of one who waits or not: its own line is told.
    let second = place("suspend=1") as u64 + 1;
    for twice in ["suspend=1\nsuspend=1", "suspend=1\nsuspend=0", "suspend=1\nsuspend=1\nsuspend=1"]
    {
        assert_eq!(refusal(with("suspend=1", twice)), Some(second));
    }
    let unfit = place("id=2") as u64 + 1;
    assert_eq!(refusal(with("id=2", "suspend=1\nsuspend=1\nid=2")), Some(unfit));
    // At every other place: before each line but an id or chain1 behind a record without a mark.
    let all = lines();
    for at in 0..all.len() {
        let mut more = all.clone();
        more.insert(at, String::from("suspend=1"));
        let value = match all[at].as_str() {
            "id=2" => Some(0),
            "id=3" | "chain1=1" => None,
            // That behind it is the second one.
            "suspend=1" => Some(at as u64 + 2),
            _ => Some(at as u64 + 1),
        };
        assert_eq!(refusal(joined(&more)), value, "before line {}", at + 1);
    }
    let mut behind_all = all.clone();
    behind_all.push(String::from("suspend=1"));
    assert_eq!(refusal(joined(&behind_all)), Some(all.len() as u64 + 1));
    // Before the first id, without any record, and in a record whose lines stop short.
    assert_eq!(refusal(SMALLEST.replacen("chain1", "suspend=1\nchain1", 1)), Some(7));
    ill_formed("interval=17", "suspend=1");
    ill_formed("due=100", "suspend=1\ndue=100");
}

/// A key that may not come next: each line left out, doubled, exchanged with the next.
#[test]
fn the_order_of_lines() {
    let all = lines();
    for place in 0..all.len() {
        let mut fewer = all.clone();
        let out = fewer.remove(place);
        let key = out.split('=').next().expect("a key");
        // A held or number line that is not there is a track or a number that is free, and without
        // a suspend line no mark stands.
        let free = key == "held" || key == "number";
        // Of the last line nothing is left: the line after the last.
        let value = if free || key == "suspend" { None } else { Some(place as u64 + 1) };
        assert_eq!(refusal(joined(&fewer)), value, "{} left out", out);
        let mut more = all.clone();
        more.insert(place, out.clone());
        let value = if free { 0 } else { place as u64 + 2 };
        assert_eq!(refusal(joined(&more)), Some(value), "{} doubled", out);
        if place + 1 < all.len() {
            let mut other = all.clone();
            other.swap(place, place + 1);
            let same = key == all[place + 1].split('=').next().expect("a key");
            // Before the last held line stands no number.
            let value = if same { 0 } else { place as u64 + 1 };
            let value = if key == "held" && !same { place as u64 + 2 } else { value };
            let value = if key == "number" && !same { place as u64 + 2 } else { value };
            // A record may be without a mark, and then the next one comes.
            let value = if key == "suspend" { place as u64 + 2 } else { value };
            assert_eq!(refusal(joined(&other)), Some(value), "{} and the next", out);
        }
    }
    // A held line behind a number.
    ill_formed("end=page", "held=6-6:1\nend=page");
}

/// Cut at every byte: the line that is not whole, or the line after the last.
#[test]
fn cut_at_every_byte() {
    for end in 0..PAGE.len() {
        let whole_lines = PAGE[..end].matches('\n').count() as u64;
        assert_eq!(refusal(&PAGE[..end]), Some(whole_lines + 1), "{}", end);
    }
    assert_eq!(refusal(""), Some(1));
    assert_eq!(refusal("page=rte2"), Some(1));
    assert_eq!(refusal("page=rte2\n"), Some(2));
}

/// Bytes behind the end are a line more.
#[test]
fn bytes_behind_the_end() {
    let after = lines().len() as u64 + 1;
    for tail in ["\n", "x", "\0", " ", "end=page\n", "end=page", "held=6-6:1\n", PAGE] {
        assert_eq!(refusal(PAGE.to_string() + tail), Some(after), "{:?}", tail);
    }
    let mut longer = PAGE.as_bytes().to_vec();
    longer.resize(8_704, 0);
    assert_eq!(refusal(longer), Some(after));
    // Of what is well formed but not sound, that line is told as well.
    assert_eq!(refusal(with("clock=7", "clock=8") + "\n"), Some(after));
}

/// The first line that is not well formed, whatever is not sound before it or not well formed
/// behind it.
#[test]
fn the_first_line() {
    let page = with("tracks=9", "tracks=0").replace("why=son:1", "why=sun:1");
    assert_eq!(
        refusal(page.replace("number=3:2:32", "number=3:2")),
        Some(place("why=son:1") as u64)
    );
}

fn record(id: u64) -> String {
    let name = [b'A' + (id / 26) as u8, b'A' + (id % 26) as u8];
    let name = String::from_utf8_lossy(&name).to_string();
    format!("id={}\nname={}\npriority=1\nstate=0\nwhy=-\ndue=-\ninterval=-\n", id, name)
}

/// The smallest tables' page with so many records, of which `programs` tells so many.
fn records_told(count: u64, told: u64, id: impl Fn(u64) -> u64) -> String {
    let records: String = (1..=count).map(|k| record(id(k))).collect();
    SMALLEST.replace("programs=0\n", &format!("programs={}\n{}", told, records))
}

#[test]
fn more_records_than_there_are() {
    assert_eq!(refusal(records_told(32, 32, |k| k)), None);
    for count in [33, 34, 40, 255, 256, 257, 288, 600] {
        assert_eq!(refusal(records_told(count, count, |k| k)), Some(0));
        assert_eq!(refusal(records_told(count, count, |k| (k - 1) % 32 + 1)), Some(0));
        let after = 7 + 7 * count;
        // One more is told: the line behind the last record is no id.
        assert_eq!(refusal(records_told(count, count + 1, |k| k)), Some(after));
        assert_eq!(refusal(records_told(count, 9_999_999_999_999, |k| k)), Some(after));
        // One fewer: the next record is no chain.
        assert_eq!(refusal(records_told(count, count - 1, |k| k)), Some(after - 7));
        let cut = records_told(count, count, |k| k).replace("end=page\n", "");
        assert_eq!(refusal(cut), Some(after + 4));
    }
    assert_eq!(refusal(records_told(0, 9_999_999_999_999, |k| k)), Some(7));
    assert_eq!(refusal(records_told(0, 33, |k| k)), Some(7));
    // Counted in 8 or in 32 bits there would be as many as are told.
    assert_eq!(refusal(records_told(1, 257, |k| k)), Some(14));
    assert_eq!(refusal(records_told(1, 4_294_967_297, |k| k)), Some(14));
}

#[test]
fn long_lines_and_many() {
    let million = "1".repeat(1_000_000);
    for (key, line) in
        [("clock=7", "clock="), ("name=A", "name="), ("why=-", "why="), ("end=page", "end=")]
    {
        ill_formed(key, &(line.to_string() + &million));
    }
    ill_formed("held=7-8:17", &format!("held={}-8:17", million));
    ill_formed("chain5=17", &format!("chain5={}", million));
    let chain = "1,".repeat(500_000);
    unsound("chain5=17", &format!("chain5={}1", chain));
    ill_formed("chain5=17", &format!("chain5={}", chain));
    let upward: Vec<String> = (1..=10_000).map(|p| p.to_string()).collect();
    unsound("chain1=1", &format!("chain1={}", upward.join(",")));
    ill_formed("chain1=1", &format!("chain1={},01", upward.join(",")));
    let runs: Vec<String> = (0..300).map(|k| format!("held={}-{}:{}", k, k, 1 + k % 2)).collect();
    unsound("held=1-3:17", &runs.join("\n"));
    let numbers: Vec<String> = (1..=20).map(|r| format!("number={}:global:-", r)).collect();
    unsound("number=1:global:-", &numbers.join("\n"));
    let lines_before = place("number=1:global:-") as u64 - 1;
    let page = with("number=1:global:-", &(numbers.join("\n") + "\nnumber=21:global"));
    assert_eq!(refusal(page), Some(lines_before + 21));
    assert_eq!(refusal(b"\n".repeat(1_000_000)), Some(1));
    assert_eq!(refusal(vec![0; 1_000_000]), Some(1));
}
