//! The command ./normalise, as it is typed: by the proved calls, which are
//! taken as they are built.

use std::io::Write;
use std::path::{Path, PathBuf};
use std::process::{Command, Output, Stdio};

fn root() -> PathBuf {
    Path::new(env!("CARGO_MANIFEST_DIR")).join("../..").canonicalize().expect("the repository")
}

/// The command of this path with these words and this standard input.
fn command(path: &Path, words: &[&str], input: &[u8]) -> Output {
    let mut child = Command::new(path)
        .args(words)
        .env("WANLOPHENG_BUILT", "1")
        .stdin(Stdio::piped())
        .stdout(Stdio::piped())
        .stderr(Stdio::piped())
        .spawn()
        .expect("it runs");
    child.stdin.take().expect("a pipe").write_all(input).expect("it reads");
    child.wait_with_output().expect("it ends")
}

/// ./normalise: its status and what it writes.
fn normalise_with(words: &[&str], input: &[u8]) -> (Option<i32>, String) {
    let ran = command(&root().join("normalise"), words, input);
    let (out, err) = (String::from_utf8_lossy(&ran.stdout), String::from_utf8_lossy(&ran.stderr));
    (ran.status.code(), format!("{out}{err}"))
}

fn normalise(words: &[&str]) -> (Option<i32>, String) {
    normalise_with(words, b"")
}

/// A group of a table in data/ by its name, as a kind is told.
fn group(table: &str, name: &str) -> String {
    let names = std::fs::read_to_string(root().join("data").join(table).with_extension("groups")).expect("names");
    let number = names.lines().position(|line| line == name).expect("a group of this name");
    format!("{name} (group {number}")
}

/// The same by the plain version.
fn both(words: &[&str], status: i32, text: &str) {
    assert_eq!(normalise(words), (Some(status), text.into()), "{words:?}");
    let plain = [&["--plain"], words].concat();
    assert_eq!(normalise(&plain), (Some(status), text.into()), "{plain:?}");
}

#[test]
fn a_name_as_text() {
    let nick = "ok nick.eth\n   6E 69 63 6B 2E 65 74 68\n   label 0: nick, ASCII\n   label 1: eth, ASCII\n";
    both(&["Nick.ETH"], 0, nick);
    both(&[""], 0, "ok\n   the empty name, which has no labels\n");
    both(&["cafe"], 0, "ok cafe\n   63 61 66 65\n   label 0: cafe, ASCII\n");
    both(
        &["Ñ.\u{1F9D1}\u{200D}\u{1F4BB}.\u{1318F}"],
        0,
        &format!(
            "ok ñ.\u{1F9D1}\u{200D}\u{1F4BB}.\u{1318F}\n   F1 2E 1F9D1 200D 1F4BB 2E 1318F\n   label 0: ñ, {})\n   \
             label 1: \u{1F9D1}\u{200D}\u{1F4BB}, emoji\n   label 2: \u{1318F}, {}, restricted)\n",
            group("full", "Latin"),
            group("full", "Egyp")
        ),
    );
    both(&["--", "--a"], 0, "ok --a\n   2D 2D 61\n   label 0: --a, ASCII\n");
}

/// EIP-137's own example, and its 32 zero bytes for the empty name.
#[test]
fn the_hash() {
    let node = "de9b09fd7c5f901e23a3f19fecc54828e9c848539801e86591bd9801b019f84f";
    let form = "ok foo.eth\n   66 6F 6F 2E 65 74 68\n   label 0: foo, ASCII\n   label 1: eth, ASCII\n";
    both(&["--hash", "Foo.ETH"], 0, &format!("{form}   hash {node}\n"));
    let zeros = "0".repeat(64);
    both(&["--hash", ""], 0, &format!("ok\n   the empty name, which has no labels\n   hash {zeros}\n"));
    let (status, json) = normalise(&["--hash", "--json", "Foo.ETH"]);
    assert!(status == Some(0) && json.ends_with(&format!(",\"hash\":\"{node}\"}}\n")), "{json}");
    let (status, refused) = normalise(&["--hash", "a..b"]);
    assert!(status == Some(1) && !refused.contains("hash"), "{refused}");
}

/// The tokens with their places: an ignored selector counts to the text before
/// it, and a joiner stands in braces.
#[test]
fn the_report() {
    let form = "ok ab\u{1F9D1}\u{200D}\u{1F4BB}.eth\n   61 62 1F9D1 200D 1F4BB 2E 65 74 68\n";
    let labels =
        format!("   label 0: ab\u{1F9D1}\u{200D}\u{1F4BB}, {})\n   label 1: eth, ASCII\n", group("full", "Latin"));
    let lines = "   text 0 3 61 62\n   emoji 3 6 1F9D1 {200D} 1F4BB\n   text 7 10 65 74 68\n";
    both(&["--report", "A\u{FE0F}b\u{1F9D1}\u{200D}\u{1F4BB}.eth"], 0, &format!("{form}{labels}{lines}"));
    both(&["--report", ""], 0, "ok\n   the empty name, which has no labels\n");
    let (status, json) = normalise(&["--report", "--json", "a.b"]);
    assert!(status == Some(0) && json.ends_with(",\"report\":[\"text 0 1 61\",\"text 2 3 62\"]}\n"), "{json}");
    let (status, refused) = normalise(&["--report", "a..b"]);
    assert!(status == Some(1) && !refused.contains("text"), "{refused}");
}

/// Below the normal form, the screen form where it is another: ENSIP-15's own
/// example, and 3BE in Greek and other labels.
#[test]
fn the_screen_form() {
    let shown = |form: &str, numbers: &str, screen: &str, more: &str, labels: &str| {
        format!("ok {form}\n   {numbers}\n   screen form {screen}\n   {more}\n{labels}")
    };
    let latin = group("full", "Latin");
    let label = format!("   label 0: -ξ1\u{20E3}, {latin})\n");
    let due = shown("-ξ1\u{20E3}", "2D 3BE 31 20E3", "-Ξ1\u{FE0F}\u{20E3}", "2D 39E 31 FE0F 20E3", &label);
    both(&["--", "-ξ1\u{20E3}"], 0, &due);
    both(&["\u{2010}Ξ1\u{FE0F}\u{20E3}"], 0, &due);
    let labels = format!("   label 0: ξδ, {})\n   label 1: aξ, {latin})\n", group("full", "Greek"));
    both(&["ξδ.aξ"], 0, &shown("ξδ.aξ", "3BE 3B4 2E 61 3BE", "ξδ.aΞ", "3BE 3B4 2E 61 39E", &labels));
    // No more where it is the same.
    both(&["ξδ"], 0, &format!("ok ξδ\n   3BE 3B4\n   label 0: ξδ, {})\n", group("full", "Greek")));
    let (status, json) = normalise(&["--json", "ξ\u{2764}"]);
    let due = ",\"screen\":\"Ξ\u{2764}\u{FE0F}\",\"screen_codepoints\":[926,10084,65039],\"labels\":";
    assert!(status == Some(0) && json.contains(due), "{json}");
    // By a table whose groups have no names none is Greek; and where it is not
    // sound, a screen form far longer than the worked length is shown.
    let table = Path::new(env!("CARGO_TARGET_TMPDIR")).join("screen.tab");
    let path = table.to_str().expect("text");
    let (long, names) = gen::screens::long_screens();
    std::fs::write(&table, plain::pack(&long.to_words())).expect("a file");
    let told = normalise(&["--table", path, "αξ"]).1;
    assert!(told.contains("\n   screen form αΞ\n   3B1 39E\n"), "{told}");
    let (name, length) = &names[0];
    let hex: String = name.iter().map(|c| format!("{c:X} ")).collect();
    let (status, told) = normalise_with(&["--json", "--table", path, "--hex", "--file", "-"], hex.as_bytes());
    let object = told.lines().find(|line| line.starts_with('{')).expect("an object");
    let screen = object.split("\"screen_codepoints\":[").nth(1).and_then(|rest| rest.split(']').next());
    assert_eq!((status, screen.map(|numbers| numbers.split(',').count())), (Some(0), Some(*length)));
}

/// Behind a 14, the groups in which the label could be respelled.
#[test]
fn groups_behind_a_14() {
    let groups = ["Latin", "Han", "Japanese", "Korean"].map(|name| group("full", name) + ")").join(", ");
    let refused = "no 14 in label 1: the label looks like another one\n   a.0х\n     ^^ label 1\n";
    both(&["a.0х"], 1, &format!("{refused}   could be respelled in {groups}\n"));
    let (status, json) = normalise(&["--json", "0х"]);
    let first = format!("\"respelled\":[{{\"group\":{},\"script\":\"Latin\"}},", 0);
    assert!(status == Some(1) && json.contains(&first), "{json}");
}

/// A book of three payees by the full-size table: one that it has as it is, one
/// that it spells otherwise, one that it refuses.
#[test]
fn payees_that_would_move() {
    let mut area = vec![0u32; 16_912];
    for (i, name) in [(0, "nick"), (3, "Nick"), (63, "n k")] {
        let slot = &mut area[16 + 264 * i..][..264];
        slot[0] = name.len() as u32;
        slot.iter_mut().skip(1).zip(name.chars()).for_each(|(word, c)| *word = c.into());
    }
    let bytes: Vec<u8> = area.iter().flat_map(|word| word.to_be_bytes()).collect();
    let file = |name: &str, bytes: &[u8]| {
        let path = std::env::temp_dir().join(format!("wanlopheng-{}-{name}", std::process::id()));
        std::fs::write(&path, bytes).expect("a file can be written");
        path
    };
    let (whole, damaged) =
        (file("book", &bytes), file("damaged", &[&bytes[..64], &[0, 0, 1, 0], &bytes[68..]].concat()));
    let cut = file("cut", &bytes[..bytes.len() - 1]);
    let told = "slot 3: Nick\n   4E 69 63 6B\n   would be nick\n   6E 69 63 6B\nslot 63: n k\n   6E 20 6B\n   \
                would be refused as 5: a codepoint that names may not have\n2 of 3 payees would move\n";
    both(&["--moved", &whole.to_string_lossy()], 1, told);
    let refused = "normalise: refusal 41: the payee book is damaged\n";
    both(&["--moved", &damaged.to_string_lossy()], 1, refused);
    let another = "normalise: refusal 40: the area of the payee book has another size\n";
    for path in [&cut, &root().join("normalise")] {
        both(&["--moved", &path.to_string_lossy()], 1, another);
    }
    let (status, _) = normalise(&["--moved", "no-such-file"]);
    assert_eq!(status, Some(3));
    for path in [whole, damaged, cut] {
        std::fs::remove_file(path).expect("it was written");
    }
}

#[test]
fn a_name_as_numbers() {
    let form = "ok _$a\n   5F 24 61\n   label 0: _$a, ASCII\n";
    both(&["--hex", "5F", "24", "41"], 0, form);
    both(&["U+005F", "U+0024", "U+0041"], 0, form);
    let refused =
        "no 4 at codepoint 1: a number that is no Unicode scalar value\n   a<U+110000>\n    ^^^^^^^^^^ U+110000\n";
    both(&["--hex", "61", "110000"], 1, refused);
}

#[test]
fn refusals_have_their_place() {
    both(&["n\u{131}ck"], 1, "no 5 at codepoint 1: a codepoint that names may not have\n   n\u{131}ck\n    ^ U+0131\n");
    both(&["nick.a_"], 1, "no 8 in label 1: a low line after another character\n   nick.a_\n        ^^ label 1\n");
    both(&["a..b"], 1, "no 6 in label 1: an empty label\n   a..b\n     ^ label 1\n");
    both(
        &["--restrict", "a.\u{1318F}"],
        1,
        "no 17 in label 1: the label is of a restricted script group\n   a.\u{1318F}\n     ^ label 1\n",
    );
    // What would move the caret or the screen is shown by its number.
    both(
        &["a\u{202E}\u{301}b"],
        1,
        "no 5 at codepoint 1: a codepoint that names may not have\n   a<U+202E><U+0301>b\n    ^^^^^^^^ U+202E\n",
    );
    let (status, told) = normalise(&[&"a".repeat(17_000)]);
    assert_eq!((status, told.as_str()), (Some(1), "no 3: the input has too many codepoints\n"));
}

#[test]
fn bytes_that_are_no_text() {
    let ran = command(&root().join("normalise"), &[], b"a\xFF\n");
    let due = "line 1: a<FF>\nno 30 at byte 1: bytes that are no UTF-8\n   a<FF>\n    ^^^^ byte 1\n\
               1 name: 0 accepted, 1 refused\n";
    assert_eq!((ran.status.code(), String::from_utf8_lossy(&ran.stdout).as_ref()), (Some(1), due));
}

#[test]
fn blanks_around_a_name() {
    let (status, told) = normalise(&[" nick"]);
    assert!(status == Some(1) && told.ends_with("--trim takes it off\n"), "{told}");
    let form = "ok nick\n   6E 69 63 6B\n   label 0: nick, ASCII\n";
    both(&["--trim", "nick"], 0, form);
    both(&["--trim", " nick\r\n"], 0, &format!("{form}   blanks taken off: 1 at the front, 2 at the back\n"));
    both(
        &["--trim", " "],
        0,
        "ok\n   the empty name, which has no labels\n   blanks taken off: 1 at the front, 0 at the back\n",
    );
}

#[test]
fn many_names() {
    let due = "line 1: Nick\nok nick\n   6E 69 63 6B\n   label 0: nick, ASCII\n\
               line 2: a_\nno 8 in label 0: a low line after another character\n   a_\n   ^^ label 0\n\
               2 names: 1 accepted, 1 refused\n";
    assert_eq!(normalise_with(&[], b"Nick\na_\n"), (Some(1), due.into()));
    assert_eq!(normalise_with(&["--plain", "--file", "-"], b"Nick\na_"), (Some(1), due.into()));
    let file = Path::new(env!("CARGO_TARGET_TMPDIR")).join("names.txt");
    std::fs::write(&file, "4E 69 63 6B\nxyz\n").expect("a file");
    let path = file.to_str().expect("text");
    let due = "line 1: Nick\nok nick\n   6E 69 63 6B\n   label 0: nick, ASCII\n\
               line 2: unreadable: xyz is no hexadecimal number\n2 names: 1 accepted, 0 refused, 1 unreadable\n";
    assert_eq!(normalise(&["--hex", "--file", path]), (Some(2), due.into()));
    assert_eq!(normalise_with(&[], b""), (Some(0), "0 names: 0 accepted, 0 refused\n".into()));
}

#[test]
fn for_programs() {
    let latin = group("full", "Latin").replace("Latin (group ", "");
    let due = "{\"input\":\"Ñ.a\",\"blanks\":[0,0],\"accepted\":true,\"form\":\"ñ.a\",\"codepoints\":[241,46,97],\
         \"screen\":\"ñ.a\",\"screen_codepoints\":[241,46,97],\"labels\":[\
         {\"form\":\"ñ\",\"codepoints\":[241],\"kind\":\"group\",\"group\":0,\"script\":\"Latin\",\"restricted\":false},\
         {\"form\":\"a\",\"codepoints\":[97],\"kind\":\"ascii\"}]}\n";
    both(&["--json", "Ñ.a"], 0, &due.replace("\"group\":0", &format!("\"group\":{latin}")));
    let due = "{\"line\":1,\"input\":null,\"blanks\":[0,0],\"accepted\":false,\"refusal\":30,\"place\":0,\"place_is\":\"byte\",\
               \"meaning\":\"bytes that are no UTF-8\"}\n{\"names\":1,\"accepted\":0,\"refused\":1,\"unreadable\":0}\n";
    assert_eq!(normalise_with(&["--json"], b"\xFF\n"), (Some(1), due.into()));
    // It is JSON, whatever the name.
    let (_, told) = normalise(&["--json", "a\"\\\u{1}\u{2028}"]);
    maker::json::read(told.trim_end()).expect("JSON");
}

/// The full-size table by default; another one with its names, or without.
#[test]
fn which_table() {
    // An emoji that names.tab lacks.
    assert_eq!(normalise(&["\u{1F6D6}"]).0, Some(0));
    let names = root().join("data/names.tab");
    let names = names.to_str().expect("text");
    assert_eq!(normalise(&["--table", names, "\u{1F6D6}"]).0, Some(1));
    let (_, told) = normalise(&["--table", names, "\u{1318F}"]);
    assert!(told.ends_with(&format!("label 0: \u{1318F}, {}, restricted)\n", group("names", "Egyp"))), "{told}");

    let table = Path::new(env!("CARGO_TARGET_TMPDIR")).join("commands.tab");
    let path = table.to_str().expect("text");
    let mut unsound = gen::small_table();
    std::fs::write(&table, plain::pack(&unsound.to_words())).expect("a file");
    let (status, told) = normalise(&["--table", path, "\u{1318F}"]);
    let number = gen::small::EGYPTIAN;
    assert_eq!(status, Some(0));
    assert!(told.ends_with(&format!("label 0: \u{1318F}, group {number} (restricted)\n")), "{told}");
    unsound.mapped.push((0x2F, vec![0x2E]));
    std::fs::write(&table, plain::pack(&unsound.to_words())).expect("a file");
    let (status, told) = normalise(&["--table", path, "a/b"]);
    assert!(status == Some(0) && told.contains("commands.tab is not sound: rule 3"), "{told}");
    std::fs::write(&table, [5]).expect("a file");
    let (status, told) = normalise(&["--table", path, "a"]);
    assert!(status == Some(3) && told.contains("the table file has another version"), "{told}");
    assert_eq!(normalise(&["--table", "/no/such/file", "a"]).0, Some(3));
    let line_program = root().join("crates/counter/data/names.tab");
    assert!(std::fs::read(line_program).expect("a table") == std::fs::read(names).expect("a table"));
}

#[test]
fn usage() {
    for words in [&["5F", "24", "41"][..], &["--other", "a"], &["--hex", "xyz"], &["--table"], &["--file", "x", "y"]] {
        let (status, told) = normalise(words);
        assert!(status == Some(2) && told.contains("usage: ./normalise"), "{told}");
    }
    let (status, told) = normalise(&["--help"]);
    assert!(status == Some(0) && told.starts_with("usage: ./normalise [OPTIONS] NAME"), "{told}");
    for option in ["--hex", "--file", "--trim", "--restrict", "--table", "--json", "--plain", "--help"] {
        assert!(told.contains(&format!("\n  {option} ")), "{option}");
    }
    for script in ["run", "install", "test"] {
        let ran = command(&root().join(script), &["--help"], b"");
        let told = String::from_utf8_lossy(&ran.stdout);
        assert!(ran.status.success() && told.starts_with("usage: ") && told.contains(script), "{told}");
    }
}

/// From another folder, by a link; paths are the caller's.
#[test]
fn a_link_elsewhere() {
    let folder = Path::new(env!("CARGO_TARGET_TMPDIR")).join("linked");
    let _ = std::fs::remove_dir_all(&folder);
    std::fs::create_dir_all(&folder).expect("a folder");
    std::os::unix::fs::symlink(root().join("normalise"), folder.join("norm")).expect("a link");
    std::fs::write(folder.join("mine.txt"), "A\n").expect("a file");
    let ran = Command::new("./norm")
        .args(["--file", "mine.txt"])
        .current_dir(&folder)
        .env("WANLOPHENG_BUILT", "1")
        .output()
        .expect("it runs");
    let told = String::from_utf8_lossy(&ran.stdout);
    assert!(ran.status.success() && told.starts_with("line 1: A\nok a\n"), "{told}");
}
