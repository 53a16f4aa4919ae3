//! The counter program of 01 ("Names at the counter"): a plain version of what
//! it writes, and runs of the proved one.

use plain::calls::join_labels;
use plain::{judge_name, parse, unpack, Index, Refusal};
use std::fs;
use std::io::{Read, Write};
use std::path::{Path, PathBuf};
use std::process::{Command, Stdio};
use std::sync::atomic::{AtomicU32, Ordering};
use std::thread;
use std::time::Duration;

/// Bytes of a line, and of a table file.
pub const LINE: usize = 8_192;
pub const FILE: usize = 32_768;
const ANSWER: usize = plain::limits::WORKED;

/// The numbers of a line: upper-case hex of 1 to 8 digits, parted by single
/// spaces.
pub fn read_line(line: &[u8]) -> Option<Vec<u32>> {
    if line.len() > LINE {
        return None;
    }
    if line.is_empty() {
        return Some(Vec::new());
    }
    line.split(|&b| b == b' ')
        .map(|word| {
            let digits = (1..=8).contains(&word.len());
            let hex = word.iter().all(|b| matches!(b, b'0'..=b'9' | b'A'..=b'F'));
            let text = std::str::from_utf8(word).ok()?;
            (digits && hex).then(|| u32::from_str_radix(text, 16).unwrap())
        })
        .collect()
}

/// A name as a line, without its end.
pub fn hex_line(name: &[u32]) -> String {
    name.iter().map(|c| format!("{c:X}")).collect::<Vec<_>>().join(" ")
}

/// The lines of an input: nothing stands after a final 0A.
pub fn lines(input: &[u8]) -> Vec<&[u8]> {
    let mut lines: Vec<&[u8]> = input.split(|&b| b == b'\n').collect();
    if lines.last().is_some_and(|l| l.is_empty()) {
        lines.pop();
    }
    lines
}

/// What the program writes for these bytes of names.tab, if there is such a
/// file, and of standard input.
pub fn due(file: Option<&[u8]>, input: &[u8]) -> String {
    let bad = "bad\n".to_string();
    let mut words = vec![0; FILE];
    let Some(file) = file.filter(|f| f.len() <= FILE) else {
        return bad;
    };
    let Ok(count) = unpack(file, &mut words) else {
        return bad;
    };
    words.truncate(count);
    let table = parse(&words);
    let index = table.as_ref().map(Index::new);
    let mut out = String::new();
    let mut names = 0;
    for line in lines(input) {
        let Some(name) = read_line(line) else {
            return out + &bad;
        };
        let judged = match &index {
            Some(index) => judge_name(index, &name).map(|labels| join_labels(&labels)),
            None => Err(Refusal { number: 1, place: 0 }),
        };
        match judged {
            Ok(answer) if answer.len() > ANSWER => out += "no 15 0\n",
            Ok(answer) if answer.is_empty() => out += "ok\n",
            Ok(answer) => out += &format!("ok {}\n", hex_line(&answer)),
            Err(r) => out += &format!("no {} {}\n", r.number, r.place),
        }
        names += 1;
    }
    out + &format!("end {names}\n")
}

/// A folder of its own, removed at the end.
pub struct Folder(PathBuf);

impl Folder {
    pub fn new() -> Folder {
        static MADE: AtomicU32 = AtomicU32::new(0);
        let n = MADE.fetch_add(1, Ordering::Relaxed);
        let path = std::env::temp_dir().join(format!("counter-{}-{n}", std::process::id()));
        fs::create_dir(&path).unwrap();
        Folder(path)
    }

    pub fn path(&self) -> &Path {
        &self.0
    }
}

impl Default for Folder {
    fn default() -> Folder {
        Folder::new()
    }
}

impl Drop for Folder {
    fn drop(&mut self) {
        let _ = fs::remove_dir_all(&self.0);
    }
}

/// What the proved program writes in a folder, its input coming in pieces.
pub fn run_in(folder: &Path, pieces: &[&[u8]], pause: Option<Duration>) -> String {
    let program = Path::new(env!("CARGO_MANIFEST_DIR")).join("../../crates/counter/out/counter");
    assert!(program.exists(), "crates/counter/out/counter is missing: run `./run` or `./test` first");
    let mut child =
        Command::new(program).current_dir(folder).stdin(Stdio::piped()).stdout(Stdio::piped()).spawn().unwrap();
    let mut input = child.stdin.take().unwrap();
    let mut output = child.stdout.take().unwrap();
    let mut wrote = String::new();
    thread::scope(|scope| {
        scope.spawn(move || {
            for piece in pieces {
                // The program may have stopped at an unreadable line.
                if input.write_all(piece).is_err() {
                    break;
                }
                if let Some(pause) = pause {
                    thread::sleep(pause);
                }
            }
        });
        output.read_to_string(&mut wrote).unwrap();
    });
    assert!(child.wait().unwrap().success());
    wrote
}

/// What the proved program writes for this table file and these pieces of
/// input.
pub fn run_pieces(file: Option<&[u8]>, pieces: &[&[u8]], pause: Option<Duration>) -> String {
    let folder = Folder::new();
    if let Some(file) = file {
        fs::write(folder.path().join("names.tab"), file).unwrap();
    }
    run_in(folder.path(), pieces, pause)
}

/// The same for a whole input, and held to the plain version.
pub fn run(file: Option<&[u8]>, input: &[u8]) -> String {
    let wrote = run_pieces(file, &[input], None);
    let due = due(file, input);
    if wrote != due {
        let at = wrote.lines().zip(due.lines()).take_while(|(a, b)| a == b).count();
        panic!(
            "line {at} of the output: {:?} in the place of {:?}, for {:?}",
            wrote.lines().nth(at),
            due.lines().nth(at),
            lines(input).get(at).map(|l| String::from_utf8_lossy(l).into_owned())
        );
    }
    wrote
}
