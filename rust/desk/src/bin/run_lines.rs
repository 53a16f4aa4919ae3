//! `./run`: hands its input to the line program and what that writes on, byte
//! by byte as it is, and says on standard error why it wrote `bad`.
//!
//!     run_lines PROGRAM FOLDER [FILE]
//!
//! FOLDER is where the program finds names.tab. Status: 0 where the output
//! ends in `end`; 1 where it ends in `bad` or was lost; 2 and 3 as ./run says.

use desk::lines::{table_fault, Watch, EXPECTED};
use std::fs::File;
use std::io::{self, stdin, stdout, IsTerminal, Read, Write};
use std::path::{Path, PathBuf};
use std::process::{Child, ChildStdin, Command, ExitCode, Stdio};
use std::sync::{Arc, Mutex};

const BAD: u8 = 1;
const USAGE: u8 = 2;
const MISSING: u8 = 3;

/// Hands the input on and watches it, each piece before the program has it.
fn feed(mut from: impl Read, mut to: ChildStdin, watch: &Mutex<Watch>) {
    let seen = || watch.lock().expect("a watch");
    let mut piece = [0; 65_536];
    loop {
        match from.read(&mut piece) {
            Ok(0) => return seen().end(),
            Ok(length) => {
                seen().take(&piece[..length]);
                if to.write_all(&piece[..length]).is_err() {
                    return; // the program has stopped
                }
            }
            Err(fault) if fault.kind() == io::ErrorKind::Interrupted => {}
            Err(fault) => return eprintln!("run: reading the names: {fault}"),
        }
    }
}

/// Hands on what the program writes, and keeps the last line.
fn pass_on(mut from: impl Read) -> io::Result<Vec<u8>> {
    let (mut out, mut last) = (stdout().lock(), Vec::new());
    let mut piece = [0; 65_536];
    loop {
        let length = from.read(&mut piece)?;
        if length == 0 {
            return Ok(last);
        }
        out.write_all(&piece[..length]).and_then(|()| out.flush())?;
        for &byte in &piece[..length] {
            if last.ends_with(b"\n") {
                last.clear();
            }
            last.push(byte);
        }
    }
}

fn start(program: &Path, folder: &Path) -> io::Result<Child> {
    Command::new(program).current_dir(folder).stdin(Stdio::piped()).stdout(Stdio::piped()).spawn()
}

/// What is said of an output with this last line, if something is.
fn said(last: &[u8], watch: &Watch, folder: &Path) -> Option<String> {
    if last.starts_with(b"end ") {
        return None;
    }
    if last != b"bad\n" {
        return Some("the program stopped before its last line".into());
    }
    let table = folder.join("names.tab");
    Some(match (table_fault(std::fs::read(&table)), &watch.found) {
        (Some(why), _) => format!("bad: the table {}: {why}", table.display()),
        (None, Some((line, why))) => format!("bad: line {line}: {why}"),
        (None, None) => "bad: the names could not be read".into(),
    })
}

fn run(program: &Path, folder: &Path, file: Option<&Path>) -> Result<(), (u8, String)> {
    let source: Box<dyn Read + Send> = match file {
        Some(path) => Box::new(File::open(path).map_err(|fault| (USAGE, format!("{}: {fault}", path.display())))?),
        None => Box::new(stdin()),
    };
    eprintln!("run: by names.tab, a cut stand-in table (docs/STANDIN.md); ./normalise has the full-size one");
    if file.is_none() && stdin().is_terminal() {
        eprintln!("run: {EXPECTED}; ^D ends");
    }
    let mut child = start(program, folder).map_err(|fault| (MISSING, format!("{}: {fault}", program.display())))?;
    let watch = Arc::new(Mutex::new(Watch::default()));
    let to = child.stdin.take().expect("a pipe");
    let seen = Arc::clone(&watch);
    // It may wait for input for ever, and is left alone then.
    std::thread::spawn(move || feed(source, to, &seen));
    let last = pass_on(child.stdout.take().expect("a pipe"));
    let last = last.map_err(|fault| (BAD, format!("output is lost: {fault}")))?;
    let ended = child.wait().map_err(|fault| (BAD, fault.to_string()))?;
    let watch = watch.lock().expect("a watch");
    match said(&last, &watch, folder) {
        Some(why) => Err((BAD, why)),
        None if !ended.success() => Err((BAD, format!("the program: {ended}"))),
        None => Ok(()),
    }
}

fn main() -> ExitCode {
    let words: Vec<PathBuf> = std::env::args_os().skip(1).map(PathBuf::from).collect();
    let ended = match words.as_slice() {
        [program, folder] => run(program, folder, None),
        [program, folder, file] => run(program, folder, Some(file)),
        _ => Err((USAGE, "run_lines PROGRAM FOLDER [FILE]".into())),
    };
    match ended {
        Ok(()) => ExitCode::SUCCESS,
        Err((status, why)) => {
            eprintln!("run: {why}");
            ExitCode::from(status)
        }
    }
}
