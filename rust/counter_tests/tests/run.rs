//! The command ./run: the output of the line program as it is, and on standard
//! error why it ends in `bad`.

use counter_tests::{due, read_line, Folder, LINE};
use gen::Rng;
use std::fs;
use std::io::Write;
use std::path::{Path, PathBuf};
use std::process::{Command, Output, Stdio};

fn root() -> PathBuf {
    Path::new(env!("CARGO_MANIFEST_DIR")).join("../..").canonicalize().expect("the repository")
}

fn ran(command: &mut Command, input: &[u8]) -> Output {
    let mut child = command
        .env("WANLOPHENG_BUILT", "1")
        .stdin(Stdio::piped())
        .stdout(Stdio::piped())
        .stderr(Stdio::piped())
        .spawn()
        .expect("it runs");
    // The program may stop before it has read all.
    let _ = child.stdin.take().expect("a pipe").write_all(input);
    child.wait_with_output().expect("it ends")
}

/// ./run on this input: what it writes is what 01 says, and its status, and
/// what it says.
fn run(input: &[u8]) -> (Option<i32>, String) {
    let table = fs::read(root().join("crates/counter/data/names.tab")).expect("a table");
    let ran = ran(&mut Command::new(root().join("run")), input);
    assert_eq!(String::from_utf8_lossy(&ran.stdout), due(Some(&table), input));
    (ran.status.code(), String::from_utf8_lossy(&ran.stderr).into_owned())
}

const TABLE: &str = "run: by names.tab, a cut stand-in table (docs/STANDIN.md); ./normalise has the full-size one\n";

#[test]
fn the_sample() {
    let ran = ran(Command::new(root().join("run")).arg(root().join("crates/counter/stdin")), b"");
    assert_eq!(String::from_utf8_lossy(&ran.stdout), "ok 5F 24 61\nno 6 1\nend 2\n");
    assert_eq!((ran.status.code(), String::from_utf8_lossy(&ran.stderr).as_ref()), (Some(0), TABLE));
}

#[test]
fn why_it_is_bad() {
    assert_eq!(run(b"61\n\n"), (Some(0), TABLE.into()));
    for (input, why) in [
        (&b"nick.eth\n"[..], "line 1: 'n' at byte 0; a name is a line of upper-case hexadecimal codepoints"),
        (b"61\n5f\n61\n", "line 2: lower case at byte 1"),
        (b"61\r\n62\r\n", "line 1: it ends in CR LF"),
        (b"\xEF\xBB\xBF61\n", "line 1: the file starts with a byte order mark"),
        (b"61\n61 \n", "line 2: it ends in a blank"),
        (b"61\n\n61\xFF", "line 3: byte FF at byte 2"),
        (&[b'6'; LINE + 1], "line 1: it has over 8192 bytes"),
    ] {
        let (status, said) = run(input);
        assert_eq!(status, Some(1), "{said}");
        assert!(said.starts_with(&format!("{TABLE}run: bad: {why}")), "{said}");
    }
}

/// What is said of a line agrees with what the program reads.
#[test]
fn a_fault_is_found_exactly_where_a_line_is_unreadable() {
    let mut rng = Rng::new(11);
    let mut unreadable = 0;
    for _ in 0..200_000 {
        let length = rng.below(12);
        let line: Vec<u8> =
            (0..length).map(|_| *rng.pick(b"0123456789ABCDEF0123456789ABCDEF      \r\tag\xEF\xFF")).collect();
        let bad = read_line(&line).is_none();
        assert_eq!(desk::lines::fault(&line, rng.percent(50)).is_some(), bad, "{line:?}");
        unreadable += usize::from(bad);
    }
    assert!((10_000..190_000).contains(&unreadable), "{unreadable}");
    for length in [LINE - 1, LINE, LINE + 1] {
        let line = "61 ".repeat(length).as_bytes()[..length].to_vec();
        assert_eq!(desk::lines::fault(&line, true).is_some(), read_line(&line).is_none(), "{length}");
    }
}

/// The command behind ./run, on a table of its own.
fn run_lines(folder: &Path) -> (Option<i32>, String, String) {
    let mut command = Command::new(env!("CARGO"));
    command.current_dir(root().join("rust")).args(["run", "-q", "--release", "--offline", "-p", "desk"]);
    command.args(["--bin", "run_lines", "--"]).arg(root().join("crates/counter/out/counter")).arg(folder);
    let ran = ran(&mut command, b"61\n");
    let text = |bytes: &[u8]| String::from_utf8_lossy(bytes).into_owned();
    (ran.status.code(), text(&ran.stdout), text(&ran.stderr))
}

#[test]
fn a_table_that_is_missing_or_no_table() {
    let folder = Folder::new();
    for (file, why) in
        [(None, "No such file"), (Some(vec![5]), "another version"), (Some(vec![1; 40_000]), "40000 bytes")]
    {
        if let Some(file) = file {
            fs::write(folder.path().join("names.tab"), file).expect("a file");
        }
        let (status, out, said) = run_lines(folder.path());
        assert_eq!((status, out.as_str()), (Some(1), "bad\n"));
        assert!(said.contains("run: bad: the table ") && said.contains(why), "{said}");
    }
}

/// Output that is lost is not a success.
#[test]
fn output_that_is_lost() {
    let full = fs::OpenOptions::new().write(true).open("/dev/full").expect("a device that is full");
    let ran = Command::new(root().join("run"))
        .arg(root().join("crates/counter/stdin"))
        .env("WANLOPHENG_BUILT", "1")
        .stdout(full)
        .stderr(Stdio::piped())
        .output()
        .expect("it runs");
    let said = String::from_utf8_lossy(&ran.stderr);
    assert!(ran.status.code() == Some(1) && said.contains("run: output is lost: "), "{said}");
}

/// At a terminal it says what it expects and takes what is typed, up to ^D.
#[test]
fn at_a_terminal() {
    const TYPED: &str = "
import os, pty, sys
child, terminal = pty.fork()
if child == 0:
    os.execv(sys.argv[1], sys.argv[1:])
os.write(terminal, b'5F 24 41\\n\\x04')
shown = b''
while True:
    try:
        piece = os.read(terminal, 4096)
    except OSError:
        break
    if not piece:
        break
    shown += piece
sys.stdout.buffer.write(shown)
sys.exit(os.waitstatus_to_exitcode(os.waitpid(child, 0)[1]))
";
    let ran = ran(Command::new("python3").args(["-c", TYPED]).arg(root().join("run")), b"");
    let shown = String::from_utf8_lossy(&ran.stdout).replace('\r', "");
    assert_eq!(ran.status.code(), Some(0), "{shown}{}", String::from_utf8_lossy(&ran.stderr));
    assert!(shown.contains("run: a name is a line of upper-case hexadecimal codepoints"), "{shown}");
    assert!(shown.contains("^D ends\n") && shown.contains("ok 5F 24 61\nend 1\n"), "{shown}");
}

#[test]
fn usage() {
    for words in [&["a", "b"][..], &["/no/such/file"], &["/"]] {
        let ran = ran(Command::new(root().join("run")).args(words), b"");
        assert!(ran.status.code() == Some(2) && ran.stdout.is_empty());
        assert!(String::from_utf8_lossy(&ran.stderr).contains("usage: ./run [FILE]"));
    }
}
