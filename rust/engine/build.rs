//! Links the proved library: libwanlopheng.a of the folder that
//! WANLOPHENG_LIB_DIR names, which `./install` and `tools/targets` write; or
//! else, for x86-64, the archives that `tools/staticlib NAME` has written in this
//! repository, and for another target what `tools/targets TARGET` has.

use std::env::var_os;
use std::path::{Path, PathBuf};

/// Links lib`name`.a of this folder; `how` says how to make it.
fn link(dir: &Path, name: &str, how: &str) {
    let archive = dir.join(format!("lib{name}.a"));
    println!("cargo::rerun-if-changed={}", archive.display());
    if !archive.exists() {
        println!("cargo::error={} is missing: {how}", archive.display());
    }
    println!("cargo::rustc-link-lib=static={name}");
}

/// The names that archives.txt lists.
fn archives(root: &Path) -> Vec<String> {
    let list = root.join("archives.txt");
    println!("cargo::rerun-if-changed={}", list.display());
    let text = std::fs::read_to_string(&list).unwrap_or_default();
    if text.is_empty() {
        println!("cargo::error={} cannot be read: set WANLOPHENG_LIB_DIR", list.display());
    }
    text.lines().filter(|line| !line.starts_with('#')).map(str::to_string).collect()
}

fn main() {
    println!("cargo::rerun-if-env-changed=WANLOPHENG_LIB_DIR");
    if let Some(dir) = var_os("WANLOPHENG_LIB_DIR").map(PathBuf::from) {
        println!("cargo::rustc-link-search=native={}", dir.display());
        return link(&dir, "wanlopheng", "`PREFIX=DIR ./install` of Wanlopheng's repository writes it to DIR/lib");
    }
    let root = Path::new(env!("CARGO_MANIFEST_DIR")).join("../..");
    let root = root.canonicalize().unwrap_or(root);
    let target = var_os("TARGET").and_then(|t| t.into_string().ok()).unwrap_or_default();
    if !target.starts_with("x86_64-") {
        let dir = root.join("target/targets").join(&target);
        println!("cargo::rustc-link-search=native={}", dir.display());
        let how = format!("run `tools/targets {target}` in {}, or set WANLOPHENG_LIB_DIR", root.display());
        return link(&dir, "wanlopheng", &how);
    }
    let dir = root.join("target/staticlib");
    println!("cargo::rustc-link-search=native={}", dir.display());
    for name in archives(&root) {
        let how = format!("run `tools/staticlib {name}` in {}, or set WANLOPHENG_LIB_DIR", root.display());
        link(&dir, &name, &how);
    }
}
