//! The refusals by number: the same in C and in docs/USING.md, and one version
//! everywhere.

use answers::Refusal;
use std::collections::BTreeMap;
use std::path::Path;

/// A file of the repository.
fn text(path: &str) -> String {
    let path = Path::new(env!("CARGO_MANIFEST_DIR")).join("../..").join(path);
    std::fs::read_to_string(&path).unwrap_or_else(|e| panic!("{}: {e}", path.display()))
}

/// Every number that has a meaning.
fn meanings() -> BTreeMap<u32, String> {
    let other = Refusal::new(u32::MAX, 0).meaning();
    let all = (1..1_000).map(|number| (number, Refusal::new(number, 0).meaning()));
    all.filter(|(_, text)| *text != other).map(|(number, text)| (number, text.to_string())).collect()
}

/// What stands between the two on this line.
fn between<'a>(line: &'a str, start: &str, end: &str) -> Option<&'a str> {
    Some(line.split_once(start)?.1.split_once(end)?.0.trim())
}

#[test]
fn the_header_has_each_number_and_its_meaning() {
    let header = text("include/wanlopheng.h");
    let (_, refusals) = header.split_once("enum wanlopheng_refusal {").expect("an enum");
    let (refusals, _) = refusals.split_once("};").expect("its end");
    let entry = |line: &str| {
        let number = line.split_once('=')?.1.trim_start();
        let number = number.split(|c: char| !c.is_ascii_digit()).next()?.parse().ok()?;
        Some((number, between(line, "/*", "*/")?.to_string()))
    };
    assert_eq!(refusals.lines().filter_map(entry).collect::<BTreeMap<u32, String>>(), meanings());
}

#[test]
fn the_texts_for_c_are_the_meanings() {
    let header = text("include/wanlopheng_text.h");
    let entry = |line: &str| {
        let number = between(line, "case ", ":")?.parse().ok()?;
        Some((number, between(line, "return \"", "\"")?.to_string()))
    };
    let mut due = meanings();
    due.insert(0, "accepted".into());
    assert_eq!(header.lines().filter_map(entry).collect::<BTreeMap<u32, String>>(), due);
    assert!(header.contains(&format!("default: return \"{}\";", Refusal::new(u32::MAX, 0).meaning())));
}

#[test]
fn the_guide_has_each_number_and_its_meaning() {
    let guide = text("docs/USING.md");
    let (_, table) = guide.split_once("## Refusals").expect("a section");
    let (table, _) = table.split_once("\n## ").expect("its end");
    let entry = |line: &str| {
        let mut cells = line.strip_prefix('|')?.split('|').map(str::trim);
        Some((cells.next()?.parse().ok()?, cells.next()?.to_string()))
    };
    assert_eq!(table.lines().filter_map(entry).collect::<BTreeMap<u32, String>>(), meanings());
}

#[test]
fn one_version() {
    let version = text("VERSION");
    let version = version.trim();
    assert!(text("include/wanlopheng.h").contains(&format!("#define WANLOPHENG_VERSION \"{version}\"")));
    assert!(text("rust/wanlopheng/Cargo.toml").contains(&format!("\nversion = \"{version}\"\n")));
    assert!(text("CHANGELOG.md").contains(&format!("\n## {version}")));
}
