//! The lines after `$` in docs/USING.md: each block is run in the repository
//! by one shell, and writes what stands below them, on standard error too. A
//! line after `>` goes on with the command before it.

use std::path::{Path, PathBuf};
use std::process::Command;

/// Where the reader of the guide is at home.
const HOME: &str = "/home/me";

/// A home outside the repository, removed at the end.
struct Home(PathBuf);

impl Home {
    fn new() -> Home {
        let home = std::env::temp_dir().join(format!("guide-{}", std::process::id()));
        std::fs::create_dir_all(&home).expect("a folder");
        Home(home)
    }
}

impl Drop for Home {
    fn drop(&mut self) {
        let _ = std::fs::remove_dir_all(&self.0);
    }
}

/// The commands of a block, and what they write.
fn parted(block: &str) -> (String, String) {
    let (mut commands, mut written) = (String::new(), String::new());
    for line in block.lines() {
        match line.strip_prefix("$ ").or(line.strip_prefix("> ")) {
            Some(command) => commands += &format!("{command}\n"),
            None => written += &format!("{line}\n"),
        }
    }
    (commands, written)
}

#[test]
fn the_lines_of_the_guide() {
    let root = Path::new(env!("CARGO_MANIFEST_DIR")).join("../..");
    let home = Home::new();
    let guide = std::fs::read_to_string(root.join("docs/USING.md")).expect("docs/USING.md");
    let blocks: Vec<&str> = guide.split("```console\n").skip(1).filter_map(|b| b.split("```").next()).collect();
    assert!(blocks.len() >= 3, "one for each use");
    for block in blocks {
        let (commands, written) = parted(block);
        let mut shell = Command::new("bash");
        shell.current_dir(&root).env("HOME", &home.0).env("WANLOPHENG_BUILT", "1").env_remove("DESTDIR");
        shell.args(["-c", &format!("exec 2>&1\n{commands}")]);
        // The toolchain of Rust is looked up below HOME unless it is told.
        if let Some(user) = std::env::var_os("HOME") {
            for (name, folder) in [("CARGO_HOME", ".cargo"), ("RUSTUP_HOME", ".rustup")] {
                if std::env::var_os(name).is_none() {
                    shell.env(name, Path::new(&user).join(folder));
                }
            }
        }
        let ran = shell.output().expect("bash runs");
        let given = String::from_utf8_lossy(&ran.stdout).replace(home.0.to_str().expect("text"), HOME);
        assert_eq!(given, written, "{commands}");
    }
}
