//! What this package itself is made of: the bytes of tables, the tables and lines that are made,
//! and the engine's own test.

use board::ffi::{Reply, TABLES};
use board::pack::{
    in_form, pack, unpack, without_marks, without_year, Bytes, AT_LINKS, AT_NUMBERS, AT_RECORDS,
    AT_TRACKS, AT_YEAR, MARK, RECORD, WITHOUT_MARKS, WITHOUT_YEAR,
};
use board::tables::{engine_side, Cases, Count, Kind};
use board::{load, natural};
use comparer::leaps;
use comparer::make;
use comparer::prng::Prng;
use comparer::script::generate;
use comparer::texts::Pair;
use comparer::turns;
use engine::raw::{Raw, RawNumber, RawRecord, RawWhy, LINKS, UNUSED};
use engine::sheet::lines;
use engine::{sheet, Engine, Holder, Timer, Why};

/// Each field at its place, worked out by hand.
#[test]
fn places() {
    assert_eq!((AT_YEAR, AT_TRACKS, AT_NUMBERS), (8, 15, 271));
    assert_eq!((AT_LINKS, AT_RECORDS), (303, 343));
    assert_eq!((RECORD, MARK, TABLES), (29, 28, 1_271));
    assert_eq!((WITHOUT_YEAR, WITHOUT_MARKS), (1_269, 1_237));
    assert_eq!(AT_RECORDS + 32 * RECORD, TABLES);
    let (engine, _) = Engine::fresh(256, 1, 16, 1975);
    let mut raw = Raw::of(&engine);
    raw.clock = 0x0102_0304_0506_0708;
    raw.year = 0x0a0b;
    raw.tracks[255] = 33;
    raw.numbers[15] = RawNumber { owner: 33, lock: 32 };
    raw.links[6] = 9;
    raw.links[LINKS + 32] = 7;
    raw.records[31] = RawRecord {
        used: true,
        name: *b"WHZAT",
        priority: 0x1234,
        state: 5,
        why: RawWhy::Tracks(0x0100),
        due: 0x11,
        interval: 0x2200,
        suspend: true,
    };
    let bytes = pack(&raw);
    assert_eq!(bytes[..16], [8, 7, 6, 5, 4, 3, 2, 1, 0x0b, 0x0a, 0, 1, 1, 0, 16, 34]);
    assert_eq!((bytes[270], bytes[301], bytes[302]), (33, 33, 32));
    assert_eq!((bytes[309], bytes[342]), (9, 7));
    let record = [1, b'W', b'H', b'Z', b'A', b'T', 0x34, 0x12, 5, 1, 0, 1];
    assert_eq!(bytes[1_242..1_254], record);
    assert_eq!(bytes[1_254..], [0x11, 0, 0, 0, 0, 0, 0, 0, 0, 0x22, 0, 0, 0, 0, 0, 0, 1]);
    assert_eq!(unpack(&bytes), raw);
    // The older forms are what they were, and are none any more.
    let older = without_year(&bytes);
    assert_eq!(older.len(), 1_269);
    assert_eq!((&older[..8], &older[8..]), (&bytes[..8], &bytes[10..]));
    let oldest = without_marks(&bytes);
    assert_eq!(oldest.len(), 1_237);
    assert_eq!((&oldest[..341], &oldest[1_209..1_221]), (&older[..341], &record[..]));
    assert_eq!(oldest[1_221..], older[1_252..1_268]);
    assert!(in_form(&bytes) && !in_form(&older) && !in_form(&oldest));
    raw.records[31].suspend = false;
    assert_eq!(pack(&raw)[..1_270], bytes[..1_270]);
    assert_eq!(pack(&raw)[1_270], 0);
}

/// Bytes that are read as others, which are in packed form.
#[test]
fn read_as_others() {
    let mut bytes = [0; TABLES];
    let at = AT_RECORDS;
    bytes[at] = 200;
    bytes[at + 9] = 9;
    bytes[at + 10] = 7;
    bytes[at + 28] = 9;
    let record = unpack(&bytes).records[0];
    assert_eq!(record, RawRecord { used: true, why: RawWhy::Number, suspend: true, ..UNUSED });
    bytes[at + 11] = 1;
    for (kind, why) in [(1, RawWhy::Tracks(263)), (2, RawWhy::Son(7)), (3, RawWhy::Lock(7))] {
        bytes[at + 9] = kind;
        assert_eq!(unpack(&bytes).records[0].why, why);
    }
}

/// The form of each byte of a record that is not free, worked out by hand.
#[test]
fn forms() {
    let with = |changes: &[(usize, u8)]| {
        let mut bytes = [0; TABLES];
        for (place, value) in changes {
            bytes[AT_RECORDS + 31 * RECORD + place] = *value;
        }
        in_form(&bytes)
    };
    assert!(with(&[]) && with(&[(0, 1)]) && !with(&[(0, 2)]) && !with(&[(0, 255)]));
    assert!(with(&[(28, 1)]) && (2..=255).all(|mark| !with(&[(28, mark)])));
    for (kind, low, high) in
        [(0, false, false), (1, true, true), (2, true, false), (3, true, false), (4, false, false)]
    {
        assert!(with(&[(9, kind)]));
        assert_eq!(with(&[(9, kind), (10, 255)]), low);
        assert_eq!(with(&[(9, kind), (11, 1)]), high);
    }
    assert!(!with(&[(9, 5)]) && !with(&[(9, 9)]) && !with(&[(9, 255)]));
    let sizes = [0, 1, WITHOUT_MARKS, WITHOUT_YEAR, TABLES - 1, TABLES + 1];
    assert!(sizes.iter().all(|size| !in_form(&vec![0; *size])));
    for place in
        [0, 8, 9, 13, 14, 15, 270, 302, 342, AT_RECORDS + 1, AT_RECORDS + 8, AT_RECORDS + 12]
    {
        let mut bytes = [0; TABLES];
        bytes[place] = 255;
        assert!(in_form(&bytes));
    }
}

#[test]
fn there_and_back() {
    let mut cases = Cases::new(3);
    for _ in 0..3_000 {
        let case = cases.next_case();
        if let Ok(bytes) = Bytes::try_from(case.tables) {
            let raw = unpack(&bytes);
            assert_eq!(unpack(&pack(&raw)), raw);
            assert_eq!(in_form(&bytes), pack(&raw) == bytes);
        }
    }
}

#[test]
fn an_answer() {
    let mut bytes = [0; 56];
    for (place, byte) in [(0, 12), (8, 1), (9, 2), (48, 5), (55, 128)] {
        bytes[place] = byte;
    }
    let reply = Reply::of_bytes(&bytes);
    assert_eq!(reply, Reply { number: 12, values: [513, 0, 0, 0, 0, (128 << 56) + 5] });
    assert_eq!(Reply::new(3, 7), Reply { number: 3, values: [7, 0, 0, 0, 0, 0] });
    assert_eq!(reply.bytes(), bytes);
}

/// Every answer number occurs, and what no run reaches is there.
#[test]
fn the_cases_go_everywhere() {
    let mut cases = Cases::new(1);
    let (mut answers, mut reformed) = ([0; 15], 0);
    let (mut mark_bytes, mut without) = (0, [0; 2]);
    let mut count = Count::default();
    for _ in 0..20_000 {
        let case = cases.next_case();
        let (sound, outcome) = engine_side(&case);
        assert!(sound || !matches!(case.kind, Kind::Reached | Kind::Unreached));
        answers[outcome.number as usize] += 1;
        count.add(&case, sound, &outcome);
        for (count, size) in without.iter_mut().zip([WITHOUT_YEAR, WITHOUT_MARKS]) {
            *count += u32::from(case.tables.len() == size);
        }
        let records = || case.tables[AT_RECORDS..].chunks_exact(RECORD);
        let whole = case.tables.len() == TABLES;
        mark_bytes += u32::from(whole && records().any(|record| record[MARK] > 1));
        // Read leniently they would be sound.
        let other_form = !in_form(&case.tables)
            && Bytes::try_from(case.tables).map_or(false, |bytes| unpack(&bytes).sound());
        reformed += u32::from(case.kind == Kind::Reformed && other_form);
    }
    assert!(answers.iter().all(|times| *times > 0), "{:?}", answers);
    assert!(reformed > 500, "{}", reformed);
    assert!(mark_bytes > 100, "{}", mark_bytes);
    assert!(without.iter().all(|times| *times > 100), "{:?}", without);
    let (marked, mismarked, marks) = count.marks();
    println!("{}", count.print());
    // Some 10,000 of them are sound.
    let often = marked > 2_000 && mismarked > 250 && marks.iter().all(|times| *times > 50);
    assert!(often, "{}", count.print());
    assert!(leaps::ROWS.iter().all(|row| count.leaps(row) > 0), "{}", count.print());
    assert!(turns::ROWS.iter().all(|row| count.turns(row) > 0), "{}", count.print());
    let (dated, misdated) = count.years();
    assert!(dated > 3_000 && misdated > 300, "{}", count.print());
    let mut prng = Prng::new(1);
    let (mut dormant_owner, mut mutual, mut beyond, mut full) = (0, 0, 0, 0);
    for _ in 0..5_000 {
        let raw = make::unreached(&mut prng);
        let record = |p: u64| &raw.records[p as usize - 1];
        let dormant = |p: u8| (1..=32).contains(&p) && record(u64::from(p)).state == 0;
        dormant_owner += u32::from(raw.numbers.iter().any(|n| dormant(n.owner) && dormant(n.lock)));
        let waits = |p, k| record(p).why == RawWhy::Son(k);
        mutual += u32::from((1..=32).any(|p| (1..=32).any(|k| waits(p, k) && waits(k, p))));
        beyond += u32::from(raw.records.iter().any(|record| record.due > 1_000_000_000_000));
        full += u32::from(raw.records.iter().all(|record| record.used));
    }
    let seen = [dormant_owner, mutual, beyond, full];
    assert!(seen.iter().all(|times| *times > 100), "{:?}", seen);
}

/// Many ticks at once, on tables of every kind: each row comes up, and each answer but that of PAGE
/// and of requests that name or call.
#[test]
fn the_ticks_go_everywhere() {
    let mut cases = Cases::of_ticks(1);
    let mut count = Count::default();
    let mut answers = [0; 15];
    for _ in 0..10_000 {
        let case = cases.next_case();
        let (sound, outcome) = engine_side(&case);
        answers[outcome.number as usize] += 1;
        count.add(&case, sound, &outcome);
    }
    assert!([0, 3, 11, 12, 13, 14].iter().all(|number| answers[*number] > 50), "{:?}", answers);
    assert!(leaps::ROWS.iter().all(|row| count.leaps(row) >= 50), "{}", count.print());
}

/// The engine's own test says what the raw one says, on engines with a field changed.
#[test]
fn natural_soundness() {
    let mut prng = Prng::new(5);
    let mut sound = [0, 0];
    for _ in 0..40_000 {
        let mut engine = make::unreached(&mut prng).engine().expect("sound tables");
        assert!(natural::sound(&engine));
        change(&mut prng, &mut engine);
        let raw = Raw::of(&engine).sound();
        assert_eq!(natural::sound(&engine), raw, "{:?}", engine);
        sound[usize::from(raw)] += 1;
    }
    assert!(sound[0] > 5_000 && sound[1] > 5_000);
}

/// One field of an engine, to a value that the raw form has too.
fn change(prng: &mut Prng, engine: &mut Engine) {
    let p = prng.between(1, 32) as usize;
    let holder = prng.pick(&[Holder::Free, Holder::Global, Holder::System, Holder::Program(p)]);
    let number = prng.pick(&[0, 1, 15, 16, 17, 255, 256, 257]);
    let whys = [
        Why::Nothing,
        Why::Number,
        Why::Tracks(number),
        Why::Lock(number as usize),
        Why::Son(number as usize),
        Why::Son(p),
        Why::Son(p),
    ];
    let clock = engine.clock;
    match prng.below(7) {
        6 => engine.year = prng.pick(&[0, 1969, 1970, 1975, 2099, 2100, 65_535]),
        0 => engine.clock = prng.pick(&[0, clock + 1, 1_000_000_000_000, 1_000_000_000_001]),
        1 => engine.system = prng.pick(&[0, 1, engine.system + 1, 256, 257]),
        2 => {
            let place = prng.below(engine.t()) as usize;
            engine.tracks[place] = holder;
        }
        3 if engine.r() > 0 => {
            let place = prng.below(engine.r()) as usize;
            engine.numbers[place].owner = holder;
            engine.numbers[place].lock = prng.pick(&[None, Some(p), engine.numbers[place].lock]);
        }
        _ => {
            let other = engine.programs.values().next().map(|program| program.name);
            if let Some(program) = engine.programs.get_mut(&p) {
                match prng.below(7) {
                    0 => program.name[prng.below(5) as usize] = prng.pick(b" A1a"),
                    1 => program.name = other.unwrap_or(program.name),
                    2 => program.priority = prng.pick(&[0, 32_767, 32_768]),
                    3 => program.state = prng.below(8) as u8,
                    4 => program.why = prng.pick(&whys),
                    5 => program.suspend = !program.suspend,
                    _ => {
                        let last = clock + 1_474_200_000;
                        // A due of 0 is no timer in the raw form.
                        let due = prng.pick(&[clock.max(1), clock + 1, last, last + 1]);
                        let interval = prng.pick(&[0, 1_474_200_000, 1_474_200_001]);
                        program.timer = Some(Timer { due, interval });
                    }
                }
            }
        }
    }
}

/// With the test and without it the engine prints what `sheet` prints.
#[test]
fn natural_run() {
    let mut texts: Vec<Vec<u8>> = (1..40).map(|seed| generate(seed, 100)).collect();
    texts.extend(["", "\n", "\n\n", "PAGE", "PAGE\n", "PAGE\n\n"].map(|text| text.into()));
    for text in texts {
        let mut out = vec![7];
        for tested in [true, false] {
            natural::run(&text, &mut out, tested);
            assert_eq!(out, sheet(&text));
        }
    }
}

/// The texts that are timed do what their names say.
#[test]
fn loads() {
    let times = |out: &[u8], wanted: &str| {
        lines(out).iter().filter(|line| **line == wanted.as_bytes()).count()
    };
    assert_eq!(lines(&load::mixed(1_100)).len(), 1_100);
    let claims = sheet(&load::claims(256, 2_000));
    let refused = times(&claims, "answer=8,value=0");
    assert!(refused > 800 && refused < 900, "{}", refused);
    // The last free track, once in the opening and then once in each of six rounds.
    assert_eq!(times(&claims, "answer=0,value=254"), 7);
    let pages = sheet(&load::pages(1_000));
    let count = times(&pages, "page=rte2");
    let held = lines(&pages).iter().filter(|line| line.starts_with(b"held=")).count();
    assert_eq!((times(&pages, "programs=32"), held), (count, 256 * count));
    assert!(count > 500 && times(&pages, "number=16:global:1") == count);
    // Every line of ticks starts all 32, and after each of them 32 end.
    let winter = sheet(&load::winter());
    assert_eq!((lines(&winter).len(), times(&winter, "answer=0,value=32")), (67 + 16 * 33, 17));
    assert!(lines(&winter).iter().all(|line| line.starts_with(b"answer=0")));
    let clock = sheet(&[&load::winter(), "PAGE\n".as_bytes()].concat());
    assert_eq!(times(&clock, "clock=1572480000"), 1);
    let every = sheet(&[&load::every_tick(), "PAGE\n".as_bytes()].concat());
    assert_eq!((times(&every, "answer=0,value=32"), times(&every, "due=100000001")), (2, 32));
    let night = sheet(&[&load::night_tables(), "TICK,4320000\nTICK,360000\n".as_bytes()].concat());
    assert_eq!(lines(&night)[67..], [b"answer=0,value=0", b"answer=0,value=1"]);
    let ticks = sheet(&load::ticks(1_000));
    assert_eq!(lines(&ticks).iter().filter(|line| !line.starts_with(b"answer=0")).count(), 0);
    for n in [1, 8, 16, 32] {
        let out = sheet(&load::by_programs(n, 1_000));
        assert!(lines(&out).iter().all(|line| line.starts_with(b"answer=0")));
    }
    for n in [16, 64, 256] {
        let out = sheet(&load::by_tracks(n, 2_000));
        assert!(times(&out, "answer=8,value=0") > 800);
    }
}

/// The pages that are timed are pages, and the full one is as long as one gets.
#[test]
fn timed_pages() {
    let full = load::full_page();
    let small = load::small_page();
    for page in [&full, &small] {
        let (raw, answer) = engine::read(page);
        assert_eq!(answer, engine::Answer::new(0, 0));
        assert_eq!(raw.engine().expect("sound tables").page_bytes(), *page);
    }
    let having = |page: &[u8], start: &str| {
        lines(page).iter().filter(|line| line.starts_with(start.as_bytes())).count()
    };
    assert_eq!(
        (having(&full, "id="), having(&full, "held="), having(&full, "number=")),
        (32, 256, 16)
    );
    assert_eq!(
        (having(&small, "id="), having(&small, "held="), having(&small, "number=")),
        (3, 1, 1)
    );
    let mut prng = Prng::new(1);
    for _ in 0..2_000 {
        let page = make::unreached(&mut prng).engine().expect("sound tables").page_bytes();
        assert!(page.len() <= full.len());
    }
    println!("the longest page has {} bytes", full.len());
    assert_eq!(full.len(), 8_196);
}

/// The pairs that are timed have the lines that their names say.
#[test]
fn timed_pairs() {
    let listed = |pair: &Pair| {
        let mut list = vec![0; 10_000];
        let answer = engine::desk::list(&pair.original, &pair.copy, &mut list);
        let count = list.iter().filter(|place| **place > 0).count();
        assert_eq!(answer, engine::Answer::new(0, count as u64));
        (lines(&pair.original).len(), lines(&pair.copy).len(), list[..count].to_vec())
    };
    assert_eq!(listed(&load::same_pages()), (540, 540, vec![]));
    assert_eq!(listed(&load::one_figure()).2.len(), 1);
    let end = engine::desk::find(&load::full_page(), b"", b"end", 1);
    assert_eq!((end.answer.number, end.end), (0, load::full_page().len() - 1));
    for keys in [7, 10_000] {
        assert_eq!(listed(&load::same_lines(10_000, keys)), (10_000, 10_000, vec![]));
    }
    assert_eq!(listed(&load::first_missing(10_000, 10_000)), (10_000, 9_999, vec![1]));
    // Each line with the first one's key has another counterpart then, and the last of them none.
    let of_first_key: Vec<u64> = (1..=10_000).filter(|line| line % 7 == 1).collect();
    assert_eq!(listed(&load::first_missing(10_000, 7)).2, of_first_key);
}
