//! Changed engines, built and tried: first by the comparer in the place of the program, then by the
//! engine's own tests.

use crate::programs::{programs, Program};
use comparer::other::Other;
use edit::change::Change;
use edit::files::{files, name, read};
use edit::many::with_all;
use std::fs;
use std::path::{Path, PathBuf};
use std::process::{Command, Stdio};
use std::thread::sleep;
use std::time::{Duration, Instant};

#[derive(Clone, Copy, Debug, PartialEq, Eq)]
pub enum Verdict {
    DoesNotBuild,
    FoundByComparer,
    FoundByTests,
    Survives,
}

/// The sources that no console line comes to: the tables as a caller could hand them in.
pub const OFF_THE_CONSOLE: [&str; 2] = ["raw.rs", "sound.rs"];

/// The sources that no console line comes to, but every page that is read, every pair of texts, or
/// every run of sheets.
pub const ON_PAGES: [&str; 1] = ["read.rs"];
pub const ON_TEXTS: [&str; 1] = ["desk.rs"];
pub const ON_SHEETS: [&str; 1] = ["follow.rs"];

/// How long one run may take; the right engine takes a second.
const LIMIT: Duration = Duration::from_secs(15);

/// The module that chooses: the number in the environment, 0 for no change.
const CHOICE: &str = "
pub mod choice {
    use std::sync::atomic::{AtomicUsize, Ordering};
    static CHOSEN: AtomicUsize = AtomicUsize::new(usize::MAX);
    pub fn chosen() -> usize {
        match CHOSEN.load(Ordering::Relaxed) {
            usize::MAX => {
                let text = std::env::var(\"MUTANT\").unwrap_or_default();
                let number = text.parse().unwrap_or(0);
                CHOSEN.store(number, Ordering::Relaxed);
                number
            }
            number => number,
        }
    }
}
";

const ENGINE: &str = "--extern=engine=libengine.rlib";

/// A folder in which engines are built.
pub struct Shop {
    folder: PathBuf,
    programs: [Program; 4],
}

impl Shop {
    /// A copy of the engine's sources, its tests in one program, and the programs to try it in.
    pub fn new(engine: &Path, folder: &Path) -> Result<Shop, String> {
        let shop = Shop { folder: folder.to_path_buf(), programs: programs() };
        fs::create_dir_all(shop.at("src")).map_err(|error| error.to_string())?;
        for file in files(&engine.join("src"), "rs")? {
            shop.write(&format!("src/{}", name(&file)), &read(&file)?)?;
        }
        let tests = fs::canonicalize(engine.join("tests")).map_err(|error| error.to_string())?;
        let mut all = String::from("#![allow(clippy::all)]\n");
        for file in files(&tests, "rs")? {
            let module = name(&file).trim_end_matches(".rs").to_string();
            all += &format!("#[path = {:?}]\nmod {};\n", file.display().to_string(), module);
        }
        shop.write("tests.rs", &all)?;
        for Program { name, source, .. } in &shop.programs {
            shop.write(&format!("{}.rs", name), source)?;
        }
        Ok(shop)
    }

    fn at(&self, name: &str) -> PathBuf {
        self.folder.join(name)
    }

    fn write(&self, name: &str, text: &str) -> Result<(), String> {
        fs::write(self.at(name), text).map_err(|error| format!("{}: {}", name, error))
    }

    /// The engine with this source in the place of the file's own, which is put back afterwards.
    pub fn alone(&self, file: &str, changed: &str) -> Result<Verdict, String> {
        let path = format!("src/{}", file);
        let own = read(&self.at(&path))?;
        self.write(&path, changed)?;
        let errors = self.build_engine("-Copt-level=0");
        self.write(&path, &own)?;
        if !errors?.is_empty() {
            return Ok(Verdict::DoesNotBuild);
        }
        if self.comparer_finds(file, 0)? {
            return Ok(Verdict::FoundByComparer);
        }
        // A constant of another type may be in the tests' way.
        if !self.build_tests()?.is_empty() {
            return Ok(Verdict::FoundByTests);
        }
        self.by_tests(0)
    }

    /// Builds one engine with all these changes; returns the numbers of those that do not build and
    /// were left out.
    pub fn together(&self, all: &[(String, String, Change)]) -> Result<Vec<usize>, String> {
        let mut left_out: Vec<usize> = Vec::new();
        loop {
            let places = self.write_together(all, &left_out)?;
            let errors = self.build_engine("-Copt-level=1")?;
            let at_fault = |(file, line): &(String, usize)| {
                let here = |place: &&(String, usize, usize, usize)| {
                    place.0 == *file && (place.2..=place.3).contains(line)
                };
                places.iter().find(here).map(|place| place.1)
            };
            let mut numbers: Vec<usize> = errors.iter().filter_map(at_fault).collect();
            numbers.sort_unstable();
            numbers.dedup();
            match (errors.is_empty(), numbers.is_empty()) {
                (true, _) => break,
                (false, true) => return Err(format!("the changes do not build: {:?}", errors)),
                (false, false) => left_out.extend(numbers),
            }
        }
        let errors = self.build_tests()?;
        if errors.is_empty() {
            Ok(left_out)
        } else {
            Err(format!("the tests do not build: {:?}", errors))
        }
    }

    /// The file, the number and the first and last line of each change.
    fn write_together(
        &self,
        all: &[(String, String, Change)],
        left_out: &[usize],
    ) -> Result<Vec<(String, usize, usize, usize)>, String> {
        let mut places = Vec::new();
        let mut files: Vec<(&String, &String)> = all.iter().map(|(f, s, _)| (f, s)).collect();
        files.dedup();
        for (file, source) in files {
            let numbered = all.iter().enumerate().map(|(place, one)| (place + 1, one));
            let here =
                numbered.filter(|(number, one)| one.0 == *file && !left_out.contains(number));
            let changes: Vec<(usize, &Change)> =
                here.map(|(number, one)| (number, &one.2)).collect();
            let (text, lines) = with_all(source, &changes);
            let choice = if file == "lib.rs" { CHOICE } else { "" };
            self.write(&format!("src/{}", file), &(text + choice))?;
            places.extend(lines.into_iter().map(|(n, first, last)| (file.clone(), n, first, last)));
        }
        if !all.iter().any(|one| one.0 == "lib.rs") {
            let own = read(&self.at("src/lib.rs"))?;
            if !own.contains(CHOICE) {
                self.write("src/lib.rs", &(own + CHOICE))?;
            }
        }
        Ok(places)
    }

    /// The engine, and the programs to try it in. Where the errors are, none if it was built.
    fn build_engine(&self, quick: &str) -> Result<Vec<(String, usize)>, String> {
        let library = ["--crate-type=rlib", "--crate-name=engine", quick];
        let mut errors = self.build("src/lib.rs", &library)?;
        for program in &self.programs {
            if errors.is_empty() {
                errors = self.build(&format!("{}.rs", program.name), &[ENGINE])?;
            }
        }
        Ok(errors)
    }

    fn build_tests(&self) -> Result<Vec<(String, usize)>, String> {
        self.build("tests.rs", &["--test", ENGINE])
    }

    /// What was built together, with the change of this number chosen.
    pub fn verdict(&self, file: &str, number: usize) -> Result<Verdict, String> {
        if self.comparer_finds(file, number)? {
            return Ok(Verdict::FoundByComparer);
        }
        self.by_tests(number)
    }

    fn comparer_finds(&self, file: &str, number: usize) -> Result<bool, String> {
        if OFF_THE_CONSOLE.contains(&file) {
            return Ok(false);
        }
        let [console, on_pages, on_texts, on_sheets] = &self.programs;
        let program = match file {
            _ if ON_PAGES.contains(&file) => on_pages,
            _ if ON_TEXTS.contains(&file) => on_texts,
            _ if ON_SHEETS.contains(&file) => on_sheets,
            _ => console,
        };
        let other = Other::Program { command: self.command(program.name, number), limit: LIMIT };
        for (input, expected) in &program.inputs {
            if other.print(input)? != *expected {
                return Ok(true);
            }
        }
        Ok(false)
    }

    fn by_tests(&self, number: usize) -> Result<Verdict, String> {
        let passed = self.tests_pass(number)?;
        Ok(if passed { Verdict::Survives } else { Verdict::FoundByTests })
    }

    /// In little memory, and without what it says when it fails.
    fn command(&self, program: &str, number: usize) -> Vec<String> {
        let program = self.at(program).display().to_string();
        let script = format!("ulimit -v 2000000; MUTANT={} exec \"$0\" 2> /dev/null", number);
        vec![String::from("sh"), String::from("-c"), script, program]
    }

    /// The file and line of each error.
    fn build(&self, source: &str, more: &[&str]) -> Result<Vec<(String, usize)>, String> {
        let mut rustc = Command::new(std::env::var("RUSTC").unwrap_or(String::from("rustc")));
        rustc.current_dir(&self.folder).arg(source).args(more);
        rustc.args(["--edition=2021", "--cap-lints=allow", "-Cdebug-assertions=on"]);
        let incremental = format!("-Cincremental=kept-{}", source.replace('/', "-"));
        rustc.args([incremental.as_str(), "--out-dir=.", "--error-format=short"]);
        let output = rustc.output().map_err(|error| format!("rustc: {}", error))?;
        let said = String::from_utf8_lossy(&output.stderr).to_string();
        let mut errors: Vec<(String, usize)> = said.lines().filter_map(place_of_error).collect();
        if !output.status.success() && errors.is_empty() {
            errors.push((said, 0));
        }
        Ok(if output.status.success() { Vec::new() } else { errors })
    }

    fn tests_pass(&self, number: usize) -> Result<bool, String> {
        let mut child = Command::new("sh")
            .args(["-c", "ulimit -v 4000000; exec \"$0\" --test-threads=1"])
            .arg(self.at("tests"))
            .env("MUTANT", number.to_string())
            .stdout(Stdio::null())
            .stderr(Stdio::null())
            .spawn()
            .map_err(|error| error.to_string())?;
        let end = Instant::now() + LIMIT;
        while Instant::now() < end {
            if let Some(status) = child.try_wait().map_err(|error| error.to_string())? {
                return Ok(status.success());
            }
            sleep(Duration::from_millis(10));
        }
        child.kill().and_then(|()| child.wait()).map_err(|error| error.to_string())?;
        Ok(false)
    }
}

/// `src/file.rs:12:5: error..`
fn place_of_error(said: &str) -> Option<(String, usize)> {
    let mut parts = said.splitn(4, ':');
    let (file, line) = (parts.next()?, parts.next()?);
    let error = parts.nth(1)?.trim_start().starts_with("error");
    let place = (name(Path::new(file)), line.parse().ok()?);
    Some(place).filter(|_| error)
}
