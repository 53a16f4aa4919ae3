//! include/wanlopheng.h, compiled as C and linked to the proved libraries; its
//! structs beside those of the wrapper; and the C programs of docs/USING.md, as
//! they stand there.

use engine::book::{Account, Found, Told};
use engine::emoji::Emoji;
use engine::keccak::{Digest, Sponge};
use engine::lists::Listed;
use engine::namehash::Namehash;
use engine::normal_forms::Form;
use engine::report::Report;
use engine::utf8::Utf8;
use engine::{Checked, Group, Label, Name, Part, Unpacked};
use std::mem::{offset_of, size_of};
use std::path::{Path, PathBuf};
use std::process::{Command, Output};

fn root() -> PathBuf {
    Path::new(env!("CARGO_MANIFEST_DIR")).join("../..")
}

/// The archives that archives.txt lists.
fn archives() -> Vec<PathBuf> {
    let list = std::fs::read_to_string(root().join("archives.txt")).expect("archives.txt");
    let names = list.lines().filter(|line| !line.starts_with('#'));
    names.map(|name| root().join(format!("target/staticlib/lib{name}.a"))).collect()
}

/// Compiles a C file, with every warning an error, and runs it in the root of
/// the repository.
fn run(source: &Path, name: &str) -> Output {
    let program = Path::new(env!("CARGO_TARGET_TMPDIR")).join(name);
    let built = Command::new("gcc")
        .args(["-std=c99", "-Wall", "-Wextra", "-Werror", "-I"])
        .arg(root().join("include"))
        .arg(source)
        .args(archives())
        .arg("-o")
        .arg(&program)
        .status()
        .expect("gcc runs");
    assert!(built.success(), "{name} does not compile or link");
    Command::new(&program).current_dir(root()).output().expect("the program runs")
}

#[test]
fn c_calls_the_library_through_its_header() {
    let source = Path::new(env!("CARGO_MANIFEST_DIR")).join("tests/header.c");
    assert_eq!(run(&source, "header").status.code(), Some(0), "the place that differs");
}

/// The size of the field that is read so.
fn size_of_field<S, F>(_: fn(&S) -> &F) -> usize {
    size_of::<F>()
}

/// The lines that structs.c writes for a struct, by the wrapper's.
macro_rules! lines {
    ($name:literal, $struct:ty: $($field:ident),+) => {
        vec![
            format!("{} {}", $name, size_of::<$struct>()),
            $(format!(
                "{}.{} {} {}",
                $name,
                stringify!($field),
                offset_of!($struct, $field),
                size_of_field(|s: &$struct| &s.$field)
            ),)+
        ]
    };
}

#[test]
fn structs_of_c_and_of_the_wrapper() {
    let due = [
        lines!("wanlopheng_unpack", Unpacked: number, count),
        lines!("wanlopheng_name", Name: number, place, length, labels),
        lines!("wanlopheng_label", Label: number, place, length, kind, group, restricted),
        lines!("wanlopheng_group", Group: number, place, found, group, restricted, whitelisted, asked),
        lines!("wanlopheng_soundness", Checked: sound, rule),
        lines!("wanlopheng_part", Part: start, length),
        lines!("wanlopheng_utf8", Utf8: number, place, length),
        lines!("wanlopheng_emoji", Emoji: number, found, taken, index, selectors),
        lines!("wanlopheng_account", Account: words),
        lines!("wanlopheng_book", Told: number, place),
        lines!("wanlopheng_found", Found: number, place, account),
        lines!("wanlopheng_list", Listed: number, place, entries),
        lines!("wanlopheng_sponge", Sponge: lanes, fill),
        lines!("wanlopheng_digest", Digest: bytes),
        lines!("wanlopheng_namehash", Namehash: name, node),
        lines!("wanlopheng_report", Report: number, place, length),
        lines!("wanlopheng_form", Form: number, length),
    ];
    let ran = run(&Path::new(env!("CARGO_MANIFEST_DIR")).join("tests/structs.c"), "structs");
    let written = String::from_utf8(ran.stdout).expect("text");
    assert_eq!(written.lines().collect::<Vec<_>>(), due.concat());

    // No struct of the header is left out.
    let header = std::fs::read_to_string(root().join("include/wanlopheng.h")).expect("the header");
    let declared = header.lines().filter(|line| line.starts_with("struct ") && line.ends_with('{'));
    assert_eq!(declared.count(), due.len());
}

/// The C programs of docs/USING.md, as they stand there: the first, and the one
/// that gives the calls a stack of its own and wipes it.
#[test]
fn the_c_programs_of_the_guide() {
    let guide = std::fs::read_to_string(root().join("docs/USING.md")).expect("docs/USING.md");
    let programs: Vec<&str> = guide.split("```c\n").skip(1).filter_map(|rest| rest.split("```").next()).collect();
    assert_eq!(programs.len(), 2);
    for (number, program) in programs.iter().enumerate() {
        let name = format!("guide{number}");
        let source = Path::new(env!("CARGO_TARGET_TMPDIR")).join(format!("{name}.c"));
        std::fs::write(&source, program).expect("a file can be written");
        let ran = run(&source, &name);
        assert_eq!((ran.status.code(), &ran.stdout[..]), (Some(0), &b"61\n2E\n62\n"[..]), "{name}");
    }
}
