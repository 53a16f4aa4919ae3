//! The maketable command on the committed files and on small ones.

use std::path::{Path, PathBuf};
use std::process::{Command, Output};

fn data(file: &str) -> PathBuf {
    Path::new(env!("CARGO_MANIFEST_DIR")).join("../../data").join(file)
}

fn temporary(file: &str) -> PathBuf {
    Path::new(env!("CARGO_TARGET_TMPDIR")).join(file)
}

fn maketable(args: &[&str]) -> Output {
    Command::new(env!("CARGO_BIN_EXE_maketable")).args(args).output().expect("maketable runs")
}

fn path(p: &Path) -> &str {
    p.to_str().expect("UTF-8")
}

/// The stand-in files, or the published ones where they are there.
fn source(file: &str) -> PathBuf {
    let there = data("published/spec.json").exists() && data("published/nf.json").exists();
    data(if there { "published" } else { "standin" }).join(file)
}

#[test]
fn makes_the_committed_tables() {
    let (spec, nf, args) = (source("spec.json"), source("nf.json"), data("names.args"));
    for (file, options) in [("full.tab", vec![]), ("names.tab", vec![format!("@{}", path(&args))])] {
        let out = temporary(file);
        let mut words = vec![path(&spec), path(&nf), path(&out)];
        words.extend(options.iter().map(String::as_str));
        let run = maketable(&words);
        let said = String::from_utf8(run.stdout).unwrap();
        assert_eq!(run.status.code(), Some(0), "{said}");
        assert!(said.ends_with("\nsound\n"), "{said}");
        assert!(std::fs::read(&out).unwrap() == std::fs::read(data(file)).unwrap(), "data/{file}");
        let names = |table: &Path| std::fs::read_to_string(table.with_extension("groups")).unwrap();
        assert_eq!(names(&out), names(&data(file)), "the names of the groups of data/{file}");
    }
    let out = temporary("nf.tab");
    let run = maketable(&["--nf", path(&nf), path(&out)]);
    assert_eq!(run.status.code(), Some(0));
    let file = std::fs::read(&out).unwrap();
    assert!(file.len() > 30_000 && file[0] == 3);
}

const NF: &str = r#"{"exclusions": [], "decomp": [[224, [97, 768]]], "ranks": [[768]], "qc": []}"#;

fn small_spec(mapped: &str) -> String {
    format!(
        r#"{{"emoji": [[9728, 65039]], "mapped": [{mapped}], "ignored": [173], "fenced": [8217, [8260, "x"]],
        "groups": [{{"name": "Latin", "primary": [97, 98, 99, 224], "secondary": [8217], "cm": []}},
                   {{"name": "Other", "restricted": true, "primary": [1072], "secondary": []}}],
        "wholes": [{{"valid": [97], "confused": [1072]}}], "cm": [768], "nsm": [768], "nsm_max": 4, "escape": [768, 8205]}}"#
    )
}

fn run_small(name: &str, spec: &str) -> (Output, PathBuf) {
    let files = [temporary(&format!("{name}-spec.json")), temporary(&format!("{name}-nf.json"))];
    std::fs::write(&files[0], spec).unwrap();
    std::fs::write(&files[1], NF).unwrap();
    let out = temporary(&format!("{name}.tab"));
    (maketable(&[path(&files[0]), path(&files[1]), path(&out)]), out)
}

/// Each word of a small table, section by section.
#[test]
fn a_small_table_word_by_word() {
    let (run, out) = run_small("small", &small_spec("[65, [97]]"));
    assert_eq!(run.status.code(), Some(0));
    let words: Vec<u32> = [
        // valid: a b c, E0, 300 from its decomposition, 430, 2019
        &[10, 0x61, 0x63, 0xE0, 0xE0, 0x300, 0x300, 0x430, 0x430, 0x2019, 0x2019][..],
        &[2, 0xAD, 0xAD],
        &[4, 0x2019, 0x2019, 0x2044, 0x2044],
        &[2, 0x300, 0x300],
        &[2, 0x300, 0x300],
        &[3, 0x41, 1, 0x61],
        &[4, 0xE0, 2, 0x61, 0x300],
        &[3, 2, 0x2600, 0xFE0F],
        &[1, 0],
        &[3, 0x300, 0x300, 1],
        // Latin: whitelisted; Other: restricted
        &[12, 2, 6, 0x61, 0x63, 0xE0, 0xE0, 0x2019, 0x2019, 1, 2, 0x430, 0x430],
        &[4, 1, 0x61, 1, 0x430],
        &[4, 0x300, 0x300, 0x200D, 0x200D],
        &[0],
    ]
    .concat();
    let mut file = vec![3];
    file.extend((words.len() as u32).to_be_bytes());
    file.extend(words.iter().flat_map(|w| w.to_be_bytes()));
    assert_eq!(std::fs::read(&out).unwrap(), file);
    assert_eq!(std::fs::read_to_string(out.with_extension("groups")).unwrap(), "Latin\nOther\n");
}

/// 02, Item 12: a list of compound sequences makes flags 6 and a file of version 4; the same with an empty list, or
/// none, makes one of version 3.
#[test]
fn compound_sequences() {
    let good = small_spec("[65, [97]]");
    let groups = |name: &str, cm: &str| {
        let (run, out) = run_small(name, &good.replace("\"cm\": []", cm));
        assert_eq!(run.status.code(), Some(0), "{}", String::from_utf8_lossy(&run.stderr));
        let file = std::fs::read(&out).unwrap();
        let words: Vec<u32> = file[5..].chunks(4).map(|b| u32::from_be_bytes([b[0], b[1], b[2], b[3]])).collect();
        let builder = plain::parse(&words).unwrap().to_builder();
        (file[0], builder.sections()[10].clone())
    };
    let latin = [6, 0x61, 0x63, 0xE0, 0xE0, 0x2019, 0x2019];
    let other = [1, 2, 0x430, 0x430];
    let list = [2, 2, 0x62, 0x300, 3, 0xE0, 0x300, 0x300];
    assert_eq!(groups("no-cm", "\"x\": 0"), (3, [&[0][..], &latin, &other].concat()));
    assert_eq!(groups("cm", "\"cm\": []"), (3, [&[2][..], &latin, &other].concat()));
    let listed = "\"cm\": [[98, 768], [224, 768, 768]]";
    assert_eq!(groups("list", listed), (4, [&[6][..], &latin, &list, &other].concat()));
    let restricted = format!("\"restricted\": true, {listed}");
    assert_eq!(groups("restricted", &restricted), (4, [&[7][..], &latin, &list, &other].concat()));
    // A cut keeps what the group still holds, and its list, though it has none left.
    let cut = |name: &str, drop: &str| {
        let files = [temporary("list-spec.json"), temporary("list-nf.json"), temporary(name)];
        let run = maketable(&["--drop", drop, path(&files[0]), path(&files[1]), path(&files[2])]);
        assert_eq!(run.status.code(), Some(0), "{}", String::from_utf8_lossy(&run.stderr));
        let file = std::fs::read(&files[2]).unwrap();
        let words: Vec<u32> = file[5..].chunks(4).map(|b| u32::from_be_bytes([b[0], b[1], b[2], b[3]])).collect();
        (file[0], plain::parse(&words).unwrap().to_builder().lists)
    };
    assert_eq!(cut("cut-list.tab", "E0").0, 4);
    assert_eq!(cut("cut-list.tab", "E0").1, [(0, vec![])].into());
}

#[test]
fn names_the_rule_and_the_entry() {
    let (run, _) = run_small("unsound", &small_spec("[65, [97]], [66, [33]]"));
    assert_eq!(run.status.code(), Some(1));
    let said = String::from_utf8(run.stdout).unwrap();
    let last = said.lines().last().unwrap();
    assert!(last.starts_with("not sound: rule 3: ") && last.contains("42"), "{said}");
}

#[test]
fn refuses_what_it_cannot_read() {
    let (run, _) = run_small("broken", "{\"emoji\": [}");
    assert_eq!(run.status.code(), Some(2));
    assert_eq!(maketable(&[]).status.code(), Some(2));
    assert_eq!(maketable(&["a", "b", "c", "--groups"]).status.code(), Some(2));
}

/// Each fault of a file is told with the file and the place.
#[test]
fn faults_have_their_place() {
    let good = small_spec("[65, [97]]");
    let cm = |list: &str| good.replace("\"cm\": []", &format!("\"cm\": [{list}]"));
    let many: Vec<String> = (0..50_000).map(|i| format!("[{}, [97]]", 0x20000 + i)).collect();
    let specs = [
        (format!("\u{FEFF}{good}"), "spec.json: line 1: a byte order mark"),
        (format!("[{good}]"), "spec.json: line 1: a map is expected, and this is a list"),
        (small_spec("[65, [97]], [66, [98]], [65, [99]]"), "spec.json: mapped, row 2: 41 stands in row 0 already"),
        (small_spec("[65, [97]], [66, []]"), "spec.json: mapped, row 1: 42 has 0 items"),
        (small_spec(&many.join(",")), "more than a table may have; the largest section is mapped, with 150000"),
        (good.replace("\"ignored\": [173],", ""), "spec.json: ignored is missing"),
        (good.replace("[173]", "[173, -1]"), "spec.json: ignored: a codepoint is expected"),
        (cm("[98]"), "spec.json: groups, row 0: group Latin: cm, row 0: a compound sequence of 1 codepoints; a table takes 2 to 8"),
        (cm(&format!("[98{}]", ", 768".repeat(8))), "cm, row 0: a compound sequence of 9 codepoints; a table takes 2 to 8"),
        (cm(&["[98, 768]"; 65].join(",")), "group Latin: cm: 65 compound sequences; a table takes 64"),
        (cm("[98, 768], [97, 768]"), "spec.json: group Latin: the compound sequence 61 300 is not in NFC, which is E0"),
    ];
    for (i, (spec, place)) in specs.iter().enumerate() {
        let (run, out) = run_small(&format!("fault-{i}"), spec);
        let said = String::from_utf8(run.stderr).unwrap();
        assert_eq!(run.status.code(), Some(2), "{said}");
        assert!(said.starts_with("maketable: ") && said.contains(place), "{said}, not {place}");
        assert!(!out.exists(), "{place}");
    }
}

#[test]
fn faults_of_the_command_line() {
    let refused = |words: &[&str], fault: &str| {
        let run = maketable(words);
        let said = String::from_utf8(run.stderr).unwrap();
        assert!(run.status.code() == Some(2) && said.contains(fault), "{words:?}: {said}");
    };
    refused(&[], "usage: maketable");
    refused(&["spec", "nf"], "usage: maketable");
    refused(&["--nf", "spec", "nf", "out"], "usage: maketable");
    refused(&["--other", "1", "spec", "nf", "out"], "--other: no such option; --help lists them");
    refused(&["--drop", "2200..2190", "spec", "nf", "out"], "--drop: 2200..2190: the first is over the last");
    refused(&["--unmap", "12x", "spec", "nf", "out"], "--unmap: 12x is no hex number");
    refused(&["no-such-file", "no-such-file", "out"], "no-such-file: ");
}

#[test]
fn help_names_every_option() {
    let run = maketable(&["--help"]);
    let said = String::from_utf8(run.stdout).unwrap();
    assert_eq!(run.status.code(), Some(0));
    let guide = std::fs::read_to_string(data("../docs/USING.md")).unwrap();
    for option in ["--groups", "--emoji", "--drop", "--unmap", "--unsound", "--nf", "--help", "@FILE"] {
        assert!(said.contains(option) && guide.contains(option), "{option}");
    }
}

/// The bytes of a good table, at a place where worse is tried.
fn good_table(name: &str) -> (PathBuf, Vec<u8>) {
    let (run, out) = run_small(name, &small_spec("[65, [97]]"));
    assert_eq!(run.status.code(), Some(0));
    let bytes = std::fs::read(&out).unwrap();
    (out, bytes)
}

/// What stands beside this file under a name that starts with its name.
fn left_beside(out: &Path) -> usize {
    let name = out.file_name().unwrap().to_str().unwrap();
    let folder = std::fs::read_dir(out.parent().unwrap()).unwrap();
    folder.filter(|e| e.as_ref().unwrap().file_name().to_str().unwrap().starts_with(name)).count() - 1
}

#[test]
fn an_unsound_table_is_written_only_with_the_flag() {
    let (out, good) = good_table("kept");
    let (run, _) = run_small("kept", &small_spec("[65, [97]], [66, [33]]"));
    assert_eq!(run.status.code(), Some(1));
    assert!(String::from_utf8(run.stdout).unwrap().contains("is not written (--unsound would)"));
    assert_eq!(std::fs::read(&out).unwrap(), good);

    let files = [temporary("kept-spec.json"), temporary("kept-nf.json")];
    let run = maketable(&["--unsound", path(&files[0]), path(&files[1]), path(&out)]);
    assert_eq!(run.status.code(), Some(1));
    assert_eq!(std::fs::read(&out).unwrap().len(), good.len() + 12, "one mapping more");
    assert_eq!(left_beside(&out), 0);
}

/// A file that cannot grow stands for a disk that is full.
#[test]
fn a_full_disk_leaves_a_good_table() {
    let (out, good) = good_table("full");
    let files = [temporary("full-spec.json"), temporary("full-nf.json")];
    let run = Command::new("sh")
        .args(["-c", "trap '' XFSZ; ulimit -f 0; exec \"$@\"", "sh", env!("CARGO_BIN_EXE_maketable")])
        .args([&files[0], &files[1], &out])
        .output()
        .expect("sh runs");
    let said = String::from_utf8(run.stderr).unwrap();
    assert!(run.status.code() == Some(2) && said.contains("full.tab: File too large"), "{said}");
    assert_eq!(std::fs::read(&out).unwrap(), good);
    assert_eq!(left_beside(&out), 0);
}

#[test]
fn a_closed_pipe_leaves_a_whole_table() {
    let (out, good) = good_table("pipe");
    std::fs::write(&out, "an older table").unwrap();
    let files = [temporary("pipe-spec.json"), temporary("pipe-nf.json")];
    let (reader, writer) = std::io::pipe().unwrap();
    drop(reader);
    let run = Command::new(env!("CARGO_BIN_EXE_maketable"))
        .args([&files[0], &files[1], &out])
        .stdout(writer)
        .output()
        .expect("maketable runs");
    let said = String::from_utf8(run.stderr).unwrap();
    assert!(run.status.code() == Some(2) && said.contains("standard output: "), "{said}");
    assert_eq!(std::fs::read(&out).unwrap(), good);
}
