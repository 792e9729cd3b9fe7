//! The command line: see `USAGE`.

use edit::change::{apply, Change};
use edit::files::{files, name, read};
use mutate::sites::changes;
use mutate::trial::{Shop, Verdict, OFF_THE_CONSOLE, ON_PAGES, ON_SHEETS, ON_TEXTS};
use std::path::{Path, PathBuf};
use std::process::ExitCode;

const USAGE: &str = "usage: mutate [--list] [--file NAME] [--line N] [--part PART] [ENGINE]
Changes the sources of ENGINE (./engine) one constant or operator at a time, and tells which of the
changed engines pass both the comparer and the engine's tests. --list only lists the changes. PART is
functions or constants: only what is within functions, or only what is not. Status 0: all were tried;
2: not run.";

struct Options {
    list: bool,
    file: Option<String>,
    line: Option<usize>,
    /// Whether what is wanted is within functions.
    functions: Option<bool>,
    engine: PathBuf,
}

fn main() -> ExitCode {
    match options().and_then(run) {
        Ok(()) => ExitCode::SUCCESS,
        Err(message) => {
            eprintln!("{}", message);
            ExitCode::from(2)
        }
    }
}

fn options() -> Result<Options, String> {
    let mut options = Options {
        list: false,
        file: None,
        line: None,
        functions: None,
        engine: PathBuf::from("engine"),
    };
    let mut args = std::env::args().skip(1);
    while let Some(arg) = args.next() {
        match arg.as_str() {
            "--list" => options.list = true,
            "--file" => options.file = Some(args.next().ok_or(USAGE)?),
            "--line" => {
                let line = args.next().and_then(|text| text.parse().ok());
                options.line = Some(line.ok_or(USAGE)?);
            }
            "--part" => {
                options.functions = match args.next().as_deref() {
                    Some("functions") => Some(true),
                    Some("constants") => Some(false),
                    _ => return Err(USAGE.to_string()),
                };
            }
            _ if arg.starts_with('-') => return Err(USAGE.to_string()),
            _ => options.engine = PathBuf::from(arg),
        }
    }
    Ok(options)
}

fn shown(file: &str, change: &Change) -> String {
    let new = if change.new.is_empty() { "nothing" } else { &change.new };
    format!("{}:{} {} to {}: {}", file, change.line, change.old, new, change.context)
}

fn run(options: Options) -> Result<(), String> {
    let mut all: Vec<(String, String, Change)> = Vec::new();
    for path in files(&options.engine.join("src"), "rs")? {
        let file = name(&path);
        if options.file.as_ref().map_or(false, |wanted| *wanted != file) {
            continue;
        }
        let source = read(&path)?;
        let wanted = |change: &Change| {
            options.line.map_or(true, |line| line == change.line)
                && options.functions.map_or(true, |within| within == change.body.is_some())
        };
        let changes = changes(&source).into_iter().filter(wanted);
        all.extend(changes.map(|change| (file.clone(), source.clone(), change)));
    }
    if options.list {
        all.iter().for_each(|(file, _, change)| println!("{}", shown(file, change)));
        return Ok(());
    }
    let folder = std::env::temp_dir().join(format!("mutate-{}", std::process::id()));
    let tried = try_all(&options.engine, &folder, &all);
    std::fs::remove_dir_all(&folder).map_err(|error| error.to_string())?;
    tried
}

/// First the changes of constants, each built by itself, then all others built together.
fn try_all(engine: &Path, folder: &Path, all: &[(String, String, Change)]) -> Result<(), String> {
    let shop = Shop::new(engine, folder)?;
    let mut counts = [0; 4];
    let mut within = Vec::new();
    for (file, source, change) in all {
        if change.body.is_some() {
            within.push((file.clone(), source.clone(), change.clone()));
        } else {
            tell(&mut counts, shop.alone(file, &apply(source, &[change]))?, file, change);
        }
    }
    let unbuilt = shop.together(&within)?;
    for file in ["lib.rs", OFF_THE_CONSOLE[0], ON_PAGES[0], ON_TEXTS[0], ON_SHEETS[0]] {
        if shop.verdict(file, 0)? != Verdict::Survives {
            return Err(String::from("the engine as it is does not pass"));
        }
    }
    for (place, (file, _, change)) in within.iter().enumerate() {
        let verdict = match unbuilt.contains(&(place + 1)) {
            true => Verdict::DoesNotBuild,
            false => shop.verdict(file, place + 1)?,
        };
        tell(&mut counts, verdict, file, change);
    }
    let [unbuilt, comparer, tests, survive] = counts;
    println!(
        "{} changes: {} do not build, {} found by the comparer, {} by the engine's tests alone, \
         {} survive",
        all.len(),
        unbuilt,
        comparer,
        tests,
        survive
    );
    Ok(())
}

fn tell(counts: &mut [u64; 4], verdict: Verdict, file: &str, change: &Change) {
    let (place, word) = match verdict {
        Verdict::DoesNotBuild => (0, "does not build"),
        Verdict::FoundByComparer => (1, "found by the comparer"),
        Verdict::FoundByTests => (2, "found by the engine's tests"),
        Verdict::Survives => (3, "SURVIVES"),
    };
    counts[place] += 1;
    println!("{}: {}", word, shown(file, change));
}
