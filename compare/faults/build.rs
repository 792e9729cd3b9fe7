//! Makes the wrong engines of `list/` from the right one's sources. Those whose changes lie within
//! functions are built together, as one engine that chooses its changes when it runs; each of the
//! others is built by itself.

use edit::change::{apply, Change};
use edit::files::{files, name, read};
use edit::list::{self, Patch};
use edit::many::with_all;
use std::collections::BTreeMap;
use std::env;
use std::fs;
use std::path::{Path, PathBuf};

const ENGINE: &str = "../engine/src";
const LIST: &str = "list";

/// File by file: its name and its text.
type Sources = BTreeMap<String, String>;

/// A change of a file.
type Placed = (String, Change);

fn main() {
    println!("cargo:rerun-if-changed={}", ENGINE);
    println!("cargo:rerun-if-changed={}", LIST);
    let out = PathBuf::from(env::var_os("OUT_DIR").expect("cargo sets it"));
    if let Err(message) = make(&out) {
        eprintln!("{}", message);
        std::process::exit(1);
    }
}

fn make(out: &Path) -> Result<(), String> {
    let mut sources = Sources::new();
    for path in files(Path::new(ENGINE), "rs")? {
        sources.insert(name(&path), read(&path)?);
    }
    let mut together: Vec<(usize, Placed)> = Vec::new();
    let mut modules = module(out, "pub mod", "together");
    let (mut faults, mut all) = (String::new(), String::new());
    for (place, (list, patch)) in patches()?.iter().enumerate() {
        let number = place + 1;
        let shown = match list.as_str() {
            "pages.txt" => "OnPages",
            "desk.txt" => "OnTexts",
            "prints.txt" => "OnPaper",
            "follow.txt" => "OnSheets",
            _ => "OnConsole",
        };
        let changes = changes(patch, &sources)?;
        let (choice, engine) = if changes.iter().all(|(_, change)| change.body.is_some()) {
            together.extend(changes.into_iter().map(|placed| (number, placed)));
            (number, String::from("together"))
        } else {
            let alone = patch.name.replace('-', "_");
            write(out, &alone, &changed(&sources, &changes), "")?;
            modules += &module(out, "mod", &alone);
            (0, alone)
        };
        let (name, what) = (&patch.name, &patch.what);
        // Each is a constant of its own: one with all of them takes the compiler a minute.
        all += &format!("FAULT_{number}, ");
        faults += &format!(
            "const FAULT_{number}: Fault = Fault {{ \
             name: {name:?}, what: {what:?}, choice: {choice}, \
             shown: Shown::{shown}, \
             sheet: |input| choice::with({choice}, || {engine}::sheet(input)), \
             read: |input| choice::with({choice}, || told!({engine}, input)), \
             desk: desk!({engine}, {choice}), \
             follow: follow!({engine}, {choice}) }};\n"
        );
    }
    write(out, "together", &with_choices(&sources, &together), "use crate::choice;\n")?;
    let text = format!("{modules}\n{faults}\npub const FAULTS: &[Fault] = &[{all}];\n");
    put(&out.join("engines.rs"), &text)
}

/// Each with the list that it stands in.
fn patches() -> Result<Vec<(String, Patch)>, String> {
    let mut patches = Vec::new();
    for path in files(Path::new(LIST), "txt")? {
        let read = list::read(&read(&path)?);
        let read = read.map_err(|error| format!("{}: {}", path.display(), error))?;
        patches.extend(read.into_iter().map(|patch| (name(&path), patch)));
    }
    Ok(patches)
}

fn changes(patch: &Patch, sources: &Sources) -> Result<Vec<Placed>, String> {
    let mut changes = Vec::new();
    for edit in &patch.edits {
        let source = sources.get(&edit.file);
        let source = source.ok_or_else(|| format!("{}: no {}", patch.name, edit.file))?;
        let change = edit.change(source).map_err(|error| format!("{}: {}", patch.name, error))?;
        changes.push((edit.file.clone(), change));
    }
    Ok(changes)
}

/// The engine with the changes of one wrong one.
fn changed(sources: &Sources, changes: &[Placed]) -> Sources {
    let mut all = Sources::new();
    for (file, source) in sources {
        let here = changes.iter().filter(|(of, _)| of == file).map(|(_, change)| change);
        all.insert(file.clone(), apply(source, &here.collect::<Vec<_>>()));
    }
    all
}

/// The engine that chooses between all these.
fn with_choices(sources: &Sources, together: &[(usize, Placed)]) -> Sources {
    let mut all = Sources::new();
    for (file, source) in sources {
        let here = together.iter().filter(|(_, (of, _))| of == file);
        let here: Vec<_> = here.map(|(number, (_, change))| (*number, change)).collect();
        all.insert(file.clone(), with_all(source, &here).0);
    }
    all
}

/// Warnings are told where the engine itself is built.
fn module(out: &Path, kind: &str, name: &str) -> String {
    let path = out.join(name).join("lib.rs");
    format!("#[allow(warnings)]\n#[path = {path:?}]\n{kind} {name};\n")
}

/// Writes an engine as a module of this name, with more text in its `lib.rs`.
fn write(out: &Path, module: &str, sources: &Sources, more: &str) -> Result<(), String> {
    let folder = out.join(module);
    fs::create_dir_all(&folder).map_err(|error| error.to_string())?;
    for (file, source) in sources {
        let text = source.replace("crate::", &format!("crate::{module}::"));
        let more = if file == "lib.rs" { more } else { "" };
        put(&folder.join(file), &(text + more))?;
    }
    Ok(())
}

fn put(path: &Path, text: &str) -> Result<(), String> {
    fs::write(path, text).map_err(|error| format!("{}: {}", path.display(), error))
}
