//! Makes a table file; `maketable --help` says how.

use maker::write::write_whole;
use maker::{Nf, Reduction, Spec};
use plain::limits::TABLE_WORDS;
use plain::TableBuilder;
use std::fmt::Write as _;
use std::io::Write as _;
use std::path::Path;
use std::process::ExitCode;

const HELP: &str = "\
usage: maketable [OPTIONS] SPEC NF OUT
       maketable --nf NF OUT

Makes the table file OUT, of version 3, or 4 where a group has compound
sequences, from files of the published shapes of spec.json and nf.json, and
beside it, as OUT.groups without .tab, the names of the groups, one a line. With
--nf it makes one for NFC and NFD alone. OUT is replaced only by a whole table
that is sound.

  --groups NAMES     keep these groups alone: Latin,Greek
  --emoji N          keep the first N emoji sequences
  --emoji CHOICE     keep the single ones and keycaps of a range, 1F600..1F64F,
                     and these sequences, 1F468-200D-1F4BB, parted by commas
  --drop RANGES      take these characters out of every group: 2190..21FF,2300
  --unmap RANGES     take out the mappings of these: 1D400..1D7FF
  --unsound          write OUT also where the table is not sound
  --help             write this text
  @FILE              stands for the words of that file

What follows from a choice is left out too, so that a cut of sound files is
sound; each option can be given more than once.

Status: 0 written and sound; 1 not sound, the rule and the entry are named, and
OUT is as it was unless --unsound is given; 2 nothing could be made or written.
";

/// What the words of the command line ask for.
#[derive(Default)]
struct Wanted {
    help: bool,
    nf_alone: bool,
    unsound: bool,
    paths: Vec<String>,
    /// Options of `Reduction`, each with its value.
    cut: Vec<String>,
}

fn text(path: &str) -> Result<String, String> {
    std::fs::read_to_string(path).map_err(|e| format!("{path}: {e}"))
}

/// The words of the command line, those of an @FILE in its place.
fn words() -> Result<Vec<String>, String> {
    let mut all = Vec::new();
    for word in std::env::args().skip(1) {
        match word.strip_prefix('@') {
            Some(path) => all.extend(text(path)?.split_whitespace().map(str::to_string)),
            None => all.push(word),
        }
    }
    Ok(all)
}

fn wanted(words: Vec<String>) -> Wanted {
    let mut wanted = Wanted::default();
    let mut words = words.into_iter();
    while let Some(word) = words.next() {
        match word.as_str() {
            "--help" | "-h" => wanted.help = true,
            "--nf" => wanted.nf_alone = true,
            "--unsound" => wanted.unsound = true,
            _ if word.starts_with('-') => {
                wanted.cut.push(word);
                wanted.cut.extend(words.next());
            }
            _ => wanted.paths.push(word),
        }
    }
    wanted
}

/// The table that is wanted.
struct Made<'a> {
    builder: TableBuilder,
    out: &'a Path,
    /// The names of its groups, one a line.
    names: Option<String>,
    /// What is told of it.
    told: String,
}

fn made(wanted: &Wanted) -> Result<Made<'_>, String> {
    let cut = Reduction::from_options(&wanted.cut)?;
    let read_nf = |path: &str| Nf::read(&text(path)?).map_err(|e| format!("{path}: {e}"));
    match wanted.paths.as_slice() {
        [nf, out] if wanted.nf_alone && wanted.cut.is_empty() => {
            let builder = maker::make_nf(&read_nf(nf)?);
            Ok(Made { builder, out: Path::new(out), names: None, told: String::new() })
        }
        [spec, nf, out] if !wanted.nf_alone => {
            let nf = read_nf(nf)?;
            let path = spec;
            let spec = Spec::read(&text(path)?).map_err(|e| format!("{path}: {e}"))?;
            maker::check_lists(&spec, &nf).map_err(|e| format!("{path}: {e}"))?;
            let told = spec.unicode.iter().map(|version| format!("Unicode {version}\n")).collect();
            let (spec, nf) = cut.apply(&spec, &nf)?;
            let names = spec.groups.iter().map(|group| format!("{}\n", group.name)).collect();
            Ok(Made { builder: maker::make(&spec, &nf), out: Path::new(out), names: Some(names), told })
        }
        _ => Err(HELP.lines().take(2).collect::<Vec<_>>().join("\n") + "\n       maketable --help"),
    }
}

/// The names of the sections, in order.
const SECTIONS: [&str; 14] = [
    "valid",
    "ignored",
    "fenced",
    "marks",
    "NSM",
    "mapped",
    "decompositions",
    "emoji",
    "exclusions",
    "classes",
    "groups",
    "wholes",
    "should-escape",
    "quick-check",
];

/// The words of a table, and a line for each section.
fn sized(builder: &TableBuilder, told: &mut String) -> Result<Vec<u32>, String> {
    let sections = builder.sections();
    for (name, section) in SECTIONS.iter().zip(&sections) {
        let _ = writeln!(told, "{name}: {} words", section.len());
    }
    let words = builder.to_words();
    if words.len() > TABLE_WORDS {
        let over = words.len() - TABLE_WORDS;
        let sizes = SECTIONS.iter().zip(sections.map(|s| s.len()));
        let (name, size) = sizes.max_by_key(|(_, size)| *size).expect("there are sections");
        return Err(format!(
            "{} words, {over} more than a table may have; the largest section is {name}, with {size}",
            words.len()
        ));
    }
    Ok(words)
}

/// Writes the table, and the names of its groups beside it where it is a file.
fn write(out: &Path, file: &[u8], names: Option<String>) -> std::io::Result<()> {
    let beside = out.with_extension("groups");
    let mut files = vec![(out, file)];
    match &names {
        Some(names) if !out.exists() || out.is_file() => files.push((&beside, names.as_bytes())),
        _ => {}
    }
    write_whole(&files)
}

/// Does what is wanted: what to tell, and whether the table is sound.
fn run(wanted: &Wanted) -> Result<(String, bool), String> {
    if wanted.help {
        return Ok((HELP.into(), true));
    }
    let Made { builder, out, names, mut told } = made(wanted)?;
    let words = sized(&builder, &mut told)?;
    let fault = plain::soundness_report(&words);
    if fault.is_none() || wanted.unsound {
        let file = plain::pack(&words);
        write(out, &file, names).map_err(|e| format!("{}: {e}", out.display()))?;
        let _ = writeln!(told, "{}: {} words, {} bytes", out.display(), words.len(), file.len());
    } else {
        let _ = writeln!(told, "{} is not written (--unsound would)", out.display());
    }
    let _ = match &fault {
        None => writeln!(told, "sound"),
        Some((rule, entry)) => writeln!(told, "not sound: rule {rule}: {entry}"),
    };
    Ok((told, fault.is_none()))
}

fn main() -> ExitCode {
    let done = words().and_then(|words| run(&wanted(words))).and_then(|(told, sound)| {
        let mut out = std::io::stdout().lock();
        let written = out.write_all(told.as_bytes()).and_then(|()| out.flush());
        written.map(|()| sound).map_err(|e| format!("standard output: {e}"))
    });
    match done {
        Ok(true) => ExitCode::SUCCESS,
        Ok(false) => ExitCode::FAILURE,
        Err(fault) => {
            // Nothing is left to say where this cannot be written either.
            let _ = writeln!(std::io::stderr(), "maketable: {fault}");
            ExitCode::from(2)
        }
    }
}
