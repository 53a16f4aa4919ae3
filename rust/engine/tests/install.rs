//! What ./install installs, and the unit's loop in C (examples/unit.c) built
//! with it.

use std::io::Write;
use std::path::{Path, PathBuf};
use std::process::{Command, Output, Stdio};

fn root() -> PathBuf {
    Path::new(env!("CARGO_MANIFEST_DIR")).join("../..").canonicalize().expect("the repository")
}

fn temporary(name: &str) -> PathBuf {
    Path::new(env!("CARGO_TARGET_TMPDIR")).join(name)
}

/// Installs what is built.
fn install(prefix: &Path, destination: Option<&Path>) {
    let mut command = Command::new(root().join("install"));
    command.arg("--built").env("PREFIX", prefix).env_remove("DESTDIR").envs(destination.map(|d| ("DESTDIR", d)));
    let ran = command.output().expect("install runs");
    assert!(ran.status.success(), "{}", String::from_utf8_lossy(&ran.stderr));
}

/// The words that pkg-config gives a compiler for the library below `prefix`,
/// or where there is no pkg-config, those of its file.
fn flags(prefix: &Path) -> Vec<String> {
    let asked = Command::new("pkg-config")
        .args(["--cflags", "--libs", "wanlopheng"])
        .env("PKG_CONFIG_PATH", prefix.join("lib/pkgconfig"))
        .output();
    match asked {
        Ok(given) => {
            assert!(given.status.success(), "{}", String::from_utf8_lossy(&given.stderr));
            String::from_utf8(given.stdout).expect("text").split_whitespace().map(str::to_string).collect()
        }
        Err(_) => ["-I", "-L"]
            .iter()
            .zip(["include", "lib"])
            .map(|(flag, folder)| format!("{flag}{}", prefix.join(folder).display()))
            .chain(["-lwanlopheng".to_string()])
            .collect(),
    }
}

/// The program of examples/unit.c, in a folder of this name.
fn unit(name: &str) -> PathBuf {
    let prefix = temporary(name);
    let program = prefix.join("unit");
    install(&prefix, None);
    let built = Command::new("gcc")
        .args(["-std=c99", "-Wall", "-Wextra", "-Werror", "-O2"])
        .arg(root().join("examples/unit.c"))
        .args(flags(&prefix))
        .arg("-o")
        .arg(&program)
        .status()
        .expect("gcc runs");
    assert!(built.success(), "examples/unit.c does not compile or link");
    program
}

fn run(unit: &Path, table: &Path, names: &str) -> Output {
    let mut child = Command::new(unit)
        .arg(table)
        .stdin(Stdio::piped())
        .stdout(Stdio::piped())
        .stderr(Stdio::piped())
        .spawn()
        .expect("the program runs");
    // A table that is refused is refused before any name is read.
    let _ = child.stdin.take().expect("a pipe").write_all(names.as_bytes());
    child.wait_with_output().expect("it ends")
}

/// A table of the largest size, its file being as long as a file can be: the
/// small table with ignored pairs of private use.
fn largest() -> Vec<u32> {
    let mut builder = gen::small_table();
    let empty = builder.to_words().len();
    let more = plain::limits::TABLE_WORDS - empty;
    if !more.is_multiple_of(2) {
        builder.exclusions.push(0xF0000);
    }
    builder.ignored.extend((0..more as u32 / 2).map(|i| (0xF0000 + i, 0xF0000 + i)));
    let words = builder.to_words();
    assert_eq!(words.len(), plain::limits::TABLE_WORDS);
    words
}

#[test]
fn the_units_loop() {
    let unit = unit("loop");
    let names = "41 2E 1F4A9\n61 5F\n\n1318F\n110000\n";
    let due = "accepted 61 2E 1F4A9; ASCII emoji\n\
               refused 8 at 0: a low line after another character\n\
               accepted\n";
    let full = run(&unit, &root().join("data/full.tab"), names);
    let written = String::from_utf8(full.stdout).expect("text");
    assert_eq!(full.status.code(), Some(0), "{}", String::from_utf8_lossy(&full.stderr));
    assert!(written.starts_with(due), "{written}");
    assert!(written.contains("\naccepted 1318F; group ") && written.contains(" (restricted)\n"), "{written}");
    assert!(written.ends_with("\nrefused 4 at 0: a number that is no Unicode scalar value\n"), "{written}");

    // The largest table, and a name that is one codepoint too long.
    let table = temporary("largest.tab");
    std::fs::write(&table, plain::pack(&largest())).expect("a file");
    let ran = run(&unit, &table, &format!("41\n{}\nxyz\n{}\n", "61 ".repeat(17_000), "61 ".repeat(100_000)));
    let due = "accepted 61; ASCII\nrefused 3 at 0: the input has too many codepoints\nunreadable\nunreadable\n";
    assert_eq!((ran.status.code(), String::from_utf8_lossy(&ran.stdout).as_ref()), (Some(0), due));
}

#[test]
fn the_unit_refuses_a_table_at_boot() {
    let unit = unit("boot");
    let table = temporary("refused.tab");
    let mut unsound = gen::small_table();
    unsound.mapped.push((0x2F, vec![0x2E]));
    let mut long = plain::pack(&largest());
    long.push(0);
    let cases: [(Vec<u8>, &str); 3] = [
        (plain::pack(&unsound.to_words()), "not sound, rule 3"),
        (long, "the table file has a wrong length"),
        (vec![5], "the table file has another version"),
    ];
    for (file, fault) in cases {
        std::fs::write(&table, file).expect("a file");
        let ran = run(&unit, &table, "61\n");
        let said = String::from_utf8_lossy(&ran.stderr);
        assert!(ran.status.code() == Some(3) && ran.stdout.is_empty() && said.contains(fault), "{said}");
    }
}

/// For a package: below DESTDIR, for PREFIX; and nothing but the three
/// functions of the C library is asked for.
#[test]
fn below_destdir() {
    let destination = temporary("destination");
    install(Path::new("/usr"), Some(&destination));
    let file = |path: &str| std::fs::read(destination.join("usr").join(path)).expect(path);
    assert!(String::from_utf8(file("lib/pkgconfig/wanlopheng.pc")).expect("text").starts_with("prefix=/usr\n"));
    for header in ["include/wanlopheng.h", "include/wanlopheng_text.h"] {
        assert!(file(header) == std::fs::read(root().join(header)).expect(header), "{header}");
    }
    let listed =
        Command::new("nm").arg("-u").arg(destination.join("usr/lib/libwanlopheng.a")).output().expect("nm runs");
    let listed = String::from_utf8(listed.stdout).expect("text");
    let asked: Vec<&str> = listed.lines().filter_map(|l| l.trim().strip_prefix("U ")).collect();
    assert!(!asked.is_empty() && asked.iter().all(|f| ["memcpy", "memmove", "memset"].contains(f)), "{asked:?}");
}
