//! A package outside the repository that has the library by path.

use std::fs;
use std::path::{Path, PathBuf};
use std::process::{Command, Output};

const MAIN: &str = r#"
fn main() -> Result<(), Box<dyn std::error::Error>> {
    let file = std::fs::read(std::env::args().nth(1).ok_or("a table file")?)?;
    let mut words = vec![0; file.len() / 4 + 1];
    let table = wanlopheng::Table::unpack(&file, &mut words)?;
    println!("{}", table.normalise("Nick.ETH")?);
    Err(table.normalise("nick..eth").unwrap_err().into())
}
"#;

const WITHOUT_STD: &str = r#"
#![no_std]
/// The number of labels of a name, or the number of the refusal.
pub fn labels(words: &[u32], buffers: &mut wanlopheng::Buffers, name: &str) -> Result<usize, u32> {
    let table = wanlopheng::Table::new(words);
    buffers.name(table, name).map(|form| form.labels()).map_err(|refusal| refusal.number)
}
"#;

/// A program in a folder of its own.
fn package(name: &str) -> PathBuf {
    package_of(name, "", "src/main.rs", MAIN)
}

/// A package that has the library with these features, and this one file.
fn package_of(name: &str, features: &str, file: &str, text: &str) -> PathBuf {
    let folder = Path::new(env!("CARGO_TARGET_TMPDIR")).join(name);
    fs::create_dir_all(folder.join("src")).expect("a folder");
    let manifest = format!(
        "[package]\nname = \"{name}\"\nversion = \"0.1.0\"\nedition = \"2021\"\n\n\
         [dependencies]\nwanlopheng = {{ path = {:?}{features} }}\n\n[workspace]\n",
        env!("CARGO_MANIFEST_DIR")
    );
    fs::write(folder.join("Cargo.toml"), manifest).expect("a manifest");
    fs::write(folder.join(file), text).expect("a source");
    folder
}

/// cargo in that folder.
fn cargo(folder: &Path, words: &[&str], library: Option<&str>) -> Output {
    let mut command = Command::new(env!("CARGO"));
    command.current_dir(folder).args(words).env("CARGO_TARGET_DIR", folder.join("target"));
    command.env_remove("WANLOPHENG_LIB_DIR").envs(library.map(|dir| ("WANLOPHENG_LIB_DIR", dir)));
    command.output().expect("cargo runs")
}

/// The program of such a package, with the archives of the repository or with
/// the library in this folder.
fn runs(name: &str, library: Option<&str>) {
    let table = Path::new(env!("CARGO_MANIFEST_DIR")).join("../../data/names.tab");
    let ran = cargo(&package(name), &["run", "-q", "--offline", "--", table.to_str().expect("text")], library);
    let written = String::from_utf8_lossy(&ran.stderr);
    assert_eq!((ran.status.code(), &ran.stdout[..]), (Some(1), &b"nick.eth\n"[..]), "{written}");
    assert!(written.contains("number: 6, place: 1"), "{written}");
}

#[test]
fn a_program_elsewhere() {
    runs("elsewhere", None);
}

/// A library without `std` and without a heap: every crate that it is built
/// from is without them.
#[test]
fn a_library_without_std() {
    let folder = package_of("without-std", ", default-features = false", "src/lib.rs", WITHOUT_STD);
    let ran = cargo(&folder, &["build", "-q", "--offline"], None);
    assert!(ran.status.success(), "{}", String::from_utf8_lossy(&ran.stderr));
    let tree = cargo(&folder, &["tree", "-q", "--offline", "--prefix", "none", "--format", "{p}"], None);
    let tree = String::from_utf8_lossy(&tree.stdout).into_owned();
    let built: Vec<&str> = tree.lines().filter_map(|line| line.split(' ').next()).skip(1).collect();
    assert!(built.contains(&"wanlopheng") && built.contains(&"engine") && built.contains(&"answers"), "{tree}");
    for name in built {
        let source = Path::new(env!("CARGO_MANIFEST_DIR")).join("..").join(name).join("src/lib.rs");
        assert!(fs::read_to_string(source).expect(name).contains("\n#![no_std]\n"), "{name}");
    }
}

#[test]
fn a_program_with_the_installed_library() {
    let prefix = Path::new(env!("CARGO_TARGET_TMPDIR")).join("installed-prefix");
    let install = Path::new(env!("CARGO_MANIFEST_DIR")).join("../../install");
    let ran = Command::new(install).arg("--built").env("PREFIX", &prefix).env_remove("DESTDIR").status();
    assert!(ran.expect("install runs").success());
    runs("installed", prefix.join("lib").to_str());
}

#[test]
fn without_the_archive_the_build_says_how_to_make_it() {
    let ran = cargo(&package("without"), &["build", "-q", "--offline"], Some("/nowhere"));
    let written = String::from_utf8_lossy(&ran.stderr);
    assert!(!ran.status.success());
    assert!(written.contains("/nowhere/libwanlopheng.a is missing") && written.contains("./install"), "{written}");
}
