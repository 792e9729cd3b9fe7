//! What is compared with the engine: a `sheet` program in a process of its own, or another engine.

use std::ffi::OsStr;
use std::io::{Read, Write};
use std::process::{Child, Command, Stdio};
use std::sync::mpsc;
use std::thread;
use std::time::Duration;

pub enum Other {
    /// The `sheet` of an engine in this process.
    Engine(fn(&[u8]) -> Vec<u8>),
    Program {
        /// The program and its arguments; not empty.
        command: Vec<String>,
        /// How long one run may take.
        limit: Duration,
    },
}

/// Appended to what a program printed that had to be stopped.
const STOPPED: &[u8] = b"(no end within the time limit)\n";

impl Other {
    /// What it prints on this input. An error is that of starting the program, not of the program.
    pub fn print(&self, input: &[u8]) -> Result<Vec<u8>, String> {
        match self {
            Other::Engine(sheet) => Ok(sheet(input)),
            Other::Program { command, limit } => run(command, *limit, input),
        }
    }
}

/// What the program, the first of these words, prints with the others as its arguments.
pub fn run<S: AsRef<OsStr>>(
    command: &[S],
    limit: Duration,
    input: &[u8],
) -> Result<Vec<u8>, String> {
    let program = command[0].as_ref();
    let mut child = Command::new(program)
        .args(&command[1..])
        .stdin(Stdio::piped())
        .stdout(Stdio::piped())
        .spawn()
        .map_err(|error| format!("{}: {}", program.to_string_lossy(), error))?;
    feed(&mut child, input.to_vec());
    let printed = collect(&mut child);
    match printed.recv_timeout(limit) {
        Ok(output) => {
            child.wait().map_err(|error| error.to_string())?;
            Ok(output)
        }
        Err(_) => {
            // Its pipe closes with it, so the threads end as well.
            child.kill().map_err(|error| error.to_string())?;
            child.wait().map_err(|error| error.to_string())?;
            let mut output = printed.recv().unwrap_or_default();
            output.extend_from_slice(STOPPED);
            Ok(output)
        }
    }
}

/// Writes the input from a thread: a program may print before it has read all of it.
fn feed(child: &mut Child, input: Vec<u8>) {
    if let Some(mut stdin) = child.stdin.take() {
        thread::spawn(move || {
            // A program that stops reading shows in what it prints.
            let _ = stdin.write_all(&input);
        });
    }
}

fn collect(child: &mut Child) -> mpsc::Receiver<Vec<u8>> {
    let (sender, receiver) = mpsc::channel();
    if let Some(mut stdout) = child.stdout.take() {
        thread::spawn(move || {
            let mut output = Vec::new();
            let _ = stdout.read_to_end(&mut output);
            let _ = sender.send(output);
        });
    }
    receiver
}
