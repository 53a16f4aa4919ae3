//! The command `./normalise`.

use crate::calls::Calls;
use crate::judged::Desk;
use crate::names::Names;
use crate::options::{numbers, options, Input, Options, Source, HELP};
use crate::{in_repository, json, moved, told};
use answers::Soundness;
use plain::limits;
use std::ffi::OsString;
use std::fs::File;
use std::io::{self, stdin, stdout, BufRead, BufReader, IsTerminal, Write};
use std::path::{Path, PathBuf};

/// The statuses of the command.
const REFUSED: u8 = 1;
const USAGE: u8 = 2;
const MISSING: u8 = 3;

/// Why the command ends before its end: its status, and what is said.
type Ended = (u8, String);

fn missing(path: &Path, fault: impl std::fmt::Display) -> Ended {
    (MISSING, format!("{}: {fault}", path.display()))
}

/// The words of a table file.
fn words(calls: &impl Calls, path: &Path) -> Result<Vec<u32>, Ended> {
    let file = std::fs::read(path).map_err(|fault| missing(path, fault))?;
    let mut words = vec![0; limits::TABLE_WORDS];
    let count = calls.unpack(&file, &mut words).map_err(|refusal| missing(path, refusal))?;
    words.truncate(count);
    Ok(words)
}

/// What is told of the names so far.
struct Teller<'a, C, W> {
    desk: Desk<'a, C>,
    names: Names,
    json: bool,
    hex: bool,
    out: W,
    judged: usize,
    refused: usize,
    unreadable: usize,
}

impl<C: Calls, W: Write> Teller<'_, C, W> {
    fn name(&mut self, line: Option<usize>, input: &Input) -> io::Result<()> {
        let judged = self.desk.judge(input);
        self.judged += 1;
        self.refused += usize::from(judged.found.is_err());
        if self.json {
            return writeln!(self.out, "{}", json::object(line, input, &judged, &self.names));
        }
        if let Some(line) = line {
            writeln!(self.out, "line {line}: {}", told::head(input))?;
        }
        told::lines(input, &judged, &self.names).iter().try_for_each(|told| writeln!(self.out, "{told}"))
    }

    /// A line of a file, without its end.
    fn line(&mut self, number: usize, line: &[u8]) -> io::Result<()> {
        if !self.hex {
            return self.name(Some(number), &Input::Text(line.to_vec()));
        }
        let words = line.split(u8::is_ascii_whitespace).filter(|word| !word.is_empty());
        match numbers(words) {
            Ok(codepoints) => self.name(Some(number), &Input::Numbers(codepoints)),
            Err(why) => {
                self.judged += 1;
                self.unreadable += 1;
                match self.json {
                    true => writeln!(self.out, "{}", json::unreadable(number, &why)),
                    false => writeln!(self.out, "line {number}: unreadable: {why}"),
                }
            }
        }
    }

    /// The names of a reader, one a line, and their count.
    fn lines(&mut self, mut from: impl BufRead) -> io::Result<()> {
        let mut line = Vec::new();
        let mut number = 0;
        while from.read_until(b'\n', &mut line)? > 0 {
            number += 1;
            self.line(number, line.strip_suffix(b"\n").unwrap_or(&line))?;
            self.out.flush()?;
            line.clear();
        }
        self.count()
    }

    fn count(&mut self) -> io::Result<()> {
        let Teller { judged, refused, unreadable, .. } = *self;
        if self.json {
            return writeln!(self.out, "{}", json::count(judged, refused, unreadable));
        }
        let (s, accepted) = (if judged == 1 { "" } else { "s" }, judged - refused - unreadable);
        write!(self.out, "{judged} name{s}: {accepted} accepted, {refused} refused")?;
        match unreadable {
            0 => writeln!(self.out),
            _ => writeln!(self.out, ", {unreadable} unreadable"),
        }
    }

    fn all(&mut self, source: &Source) -> Result<(), Ended> {
        let wrote = match source {
            Source::One(input) => self.name(None, input),
            Source::File(path) => {
                let file = File::open(path).map_err(|fault| missing(path, fault))?;
                self.lines(BufReader::new(file))
            }
            Source::Standard => {
                if stdin().is_terminal() {
                    eprintln!("normalise: type a name and the return key; ^D ends");
                }
                self.lines(stdin().lock())
            }
            Source::Book(_) => unreachable!("a book has a command of its own"),
        };
        wrote.and_then(|()| self.out.flush()).map_err(|fault| (MISSING, format!("reading or writing: {fault}")))
    }

    fn status(&self) -> u8 {
        match (self.unreadable, self.refused) {
            (0, 0) => 0,
            (0, _) => REFUSED,
            _ => USAGE,
        }
    }
}

/// Says where a table that was chosen is not sound.
fn check(calls: &impl Calls, path: &Path, table: &[u32]) {
    match calls.soundness(table) {
        Soundness::Sound => {}
        Soundness::Broken(0) => eprintln!("normalise: {} has a layout fault", path.display()),
        Soundness::Broken(rule) => eprintln!("normalise: {} is not sound: rule {rule}", path.display()),
    }
}

/// The payees of a book that the table would file differently.
fn payees(calls: &impl Calls, book: &Path, table: &[u32]) -> Result<u8, Ended> {
    let file = std::fs::read(book).map_err(|fault| missing(book, fault))?;
    let (lines, count) =
        moved::lines(calls, &moved::words(&file), table).map_err(|refusal| (REFUSED, refusal.to_string()))?;
    let mut out = stdout().lock();
    lines
        .iter()
        .try_for_each(|line| writeln!(out, "{line}"))
        .map_err(|fault| (MISSING, format!("writing: {fault}")))?;
    Ok(if count == 0 { 0 } else { REFUSED })
}

fn run(calls: &impl Calls, wanted: &Options) -> Result<u8, Ended> {
    let path: PathBuf = wanted.table.clone().unwrap_or_else(|| in_repository("data/full.tab"));
    let table = words(calls, &path)?;
    if wanted.table.is_some() {
        check(calls, &path, &table);
    }
    if let Source::Book(book) = &wanted.source {
        return payees(calls, book, &table);
    }
    let names = Names::beside(&path, &table);
    let Options { restrict, trim, hash, report, .. } = *wanted;
    let desk = Desk { calls, table: &table, setting: u32::from(restrict), greek: names.greek(), trim, hash, report };
    let out = stdout().lock();
    let (json, hex) = (wanted.json, wanted.hex);
    let mut teller = Teller { desk, names, json, hex, out, judged: 0, refused: 0, unreadable: 0 };
    teller.all(&wanted.source)?;
    Ok(teller.status())
}

/// The command by these calls: its status.
pub fn main(calls: &impl Calls, words: impl IntoIterator<Item = OsString>) -> u8 {
    let ended = match options(words) {
        Ok(None) => stdout().write_all(HELP.as_bytes()).map(|()| 0).map_err(|fault| (MISSING, fault.to_string())),
        Ok(Some(wanted)) => run(calls, &wanted),
        Err(fault) => Err((USAGE, format!("{fault}\n{}", usage()))),
    };
    ended.unwrap_or_else(|(status, said)| {
        eprintln!("normalise: {said}");
        status
    })
}

/// The first lines of the help.
fn usage() -> String {
    let lines: Vec<&str> = HELP.lines().take_while(|line| !line.is_empty()).collect();
    lines.join("\n") + "\n       ./normalise --help"
}
