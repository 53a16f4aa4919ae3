//! tools/build.sh and tools/staticlib: what has changed is proved and built, and
//! nothing else. Stand-ins for rt and rattle write the files that those would.

use std::fs;
use std::path::PathBuf;
use std::process::{Command, Output};

/// `rt check` and `rt run` in a crate's folder: the libraries below are built,
/// each with a stamp, then the crate itself.
const RT: &str = r#"#!/usr/bin/env bash
top=$(cd ../.. && pwd)
[ "$1" = version ] && echo "a kit" && exit
name=$(basename "$PWD")
echo "$1 $name" >>"$top/calls"
for crate in low "$name"; do
    cd "$top/crates/$crate" || exit 2
    echo "rt: chose --jobs 2 for $crate"
    if grep -q wrong src/lib.rt; then
        echo "fn $crate: not proved"
        exit 1
    fi
    mkdir -p "out/rlib/$crate.rlib"
    touch "out/rlib/$crate.rlib/format" out/rlib/stamp
    printf 'a function: proved\nanother: proved\nlogic=proved functions=2\n'
done
[ "$1" != run ] || { echo >"out/$name"; chmod +x "out/$name"; echo "what the program writes"; }
"#;

/// `rattle build .. --toolchain FOLDER .. -o ARCHIVE`: it hands a module to the
/// clang of that folder, and no environment.
const RATTLE: &str = r#"#!/usr/bin/env bash
name=$3
case " $* " in *' --incremental '*) over=own ;; *) over=ci ;; esac
echo "$1 $name over $over" >>../../calls
while [ "$1" != --toolchain ]; do shift; done
clang=$2/bin/clang
while [ "$1" != -o ]; do shift; done
room=$(mktemp -d)
echo "the module of $name" >"$room/module.bc"
(cd "$room" && env -i PATH="$PATH" "$clang" -x ir module.bc -o module.o) && mv "$room/module.o" "$2"
rm -r "$room"
echo "axioms libc: none reached of the 128 declared"
grep -h assumes src/lib.rt
echo "logic=proved functions=2 target=x86_64-unknown-linux-gnu"
"#;

/// What stands for the toolchain's clang: it writes what it was asked.
const CLANG: &str = "#!/bin/sh\n(echo \"$@\"; cat \"$3\") >\"$5\"\n";

/// A repository of two libraries and a program, and the stand-in for rt.
struct Repository(PathBuf);

impl Drop for Repository {
    fn drop(&mut self) {
        let _ = fs::remove_dir_all(&self.0);
    }
}

impl Repository {
    fn new(name: &str) -> Repository {
        // Not below the repository, where a source of no listed crate is a fault.
        let root = std::env::temp_dir().join(format!("wanlopheng-build-{}-{name}", std::process::id()));
        let _ = fs::remove_dir_all(&root);
        let repository = Repository(root);
        repository.write("crates.txt", "# the lowest first\nlow:\nother:\nboundary staticlib: low\ncounter: low\n");
        for name in ["low", "other", "boundary", "counter"] {
            repository.write(&format!("crates/{name}/src/lib.rt"), name);
            for folder in ["specs", "proofs"] {
                fs::create_dir_all(repository.0.join("crates").join(name).join(folder)).expect("a folder");
            }
        }
        let staticlib = fs::read_to_string(desk::in_repository("tools/staticlib")).expect("tools/staticlib");
        let programs = [
            ("bin/rt", RT),
            ("bin/rattle", RATTLE),
            ("toolchain/bin/clang", CLANG),
            ("toolchain/lib/crti.o", ""),
            ("tools/staticlib", &staticlib),
        ];
        for (program, text) in programs {
            repository.write(program, text);
            let made = Command::new("chmod").arg("+x").arg(repository.0.join(program)).status();
            assert!(made.is_ok_and(|status| status.success()));
        }
        repository
    }

    fn write(&self, path: &str, text: &str) {
        let path = self.0.join(path);
        fs::create_dir_all(path.parent().expect("a folder")).expect("a folder");
        fs::write(path, text).expect("a file");
    }

    /// What this command of build.sh does: the calls of rt, and how it ended.
    fn ask(&self, command: &str, built: bool) -> (String, Output) {
        let tools = desk::in_repository("tools/build.sh");
        let script = format!("set -eu -o pipefail; root=$PWD me=test; . {}; {command}", tools.display());
        let path = format!("{}:{}", self.0.join("bin").display(), std::env::var("PATH").unwrap_or_default());
        let _ = fs::remove_file(self.0.join("calls"));
        let mut shell = Command::new("bash");
        shell.current_dir(&self.0).args(["-c", &script]).env("PATH", path).env_remove("WANLOPHENG_BUILT");
        let ran = shell.envs(built.then_some(("WANLOPHENG_BUILT", "1"))).output().expect("bash runs");
        (fs::read_to_string(self.0.join("calls")).unwrap_or_default(), ran)
    }

    fn calls(&self, command: &str) -> String {
        let (calls, ran) = self.ask(command, false);
        assert!(ran.status.success(), "{}", String::from_utf8_lossy(&ran.stderr));
        calls
    }
}

const BOTH: &str = "check boundary\nbuild boundary over own\n";

#[test]
fn an_archive_is_built_where_something_of_it_has_changed() {
    let repository = Repository::new("archive");
    let archive = || repository.calls("build_archive boundary");
    assert_eq!(archive(), BOTH, "the first time");
    assert_eq!(archive(), "", "nothing has changed");
    repository.write("crates/low/src/lib.rt", "low, changed");
    assert_eq!(archive(), BOTH, "a crate below");
    assert_eq!(archive(), "");
    repository.write("crates/boundary/specs/New.antt", "");
    assert_eq!(archive(), BOTH, "its own files");
    repository.write("crates/other/src/lib.rt", "other, changed");
    assert_eq!(archive(), "", "a crate that it does not stand on");
    fs::remove_file(repository.0.join("target/staticlib/libboundary.a")).expect("an archive");
    assert_eq!(archive(), BOTH, "the archive is gone");
    fs::remove_file(repository.0.join("target/staticlib/boundary.bc")).expect("a module");
    assert_eq!(archive(), BOTH, "its module is gone");
    repository.calls("sleep 0.01; touch target/staticlib/libboundary.a");
    assert_eq!(archive(), BOTH, "the archive is newer than the module that is kept");
}

/// What rt ci has left is not proved again while it is as rt ci read it.
#[test]
fn what_rt_ci_left_is_taken() {
    let repository = Repository::new("left");
    let both = "build_archive boundary; build_program counter";
    let pass = || {
        for path in ["low/out/rlib/low.rlib/format", "counter/out/counter"] {
            repository.write(&format!("crates/{path}"), "");
        }
        repository.calls("chmod +x crates/counter/out/counter; note target/ci.sum \"$(sum_of $(listed))\"");
    };
    pass();
    assert_eq!(repository.calls(both), "build boundary over ci\n");
    repository.write("crates/low/src/lib.rt", "low, changed");
    assert_eq!(repository.calls(both), format!("{BOTH}run counter\n"), "another text");
    repository.write("crates/low/src/lib.rt", "low");
    assert_eq!(
        repository.calls(both),
        format!("{BOTH}run counter\n"),
        "the text of rt ci, but rt check put its libraries there"
    );
    fs::remove_file(repository.0.join("crates/low/out/rlib/stamp")).expect("a stamp");
    pass();
    fs::remove_file(repository.0.join("target/staticlib/boundary.bc")).expect("a module");
    assert_eq!(repository.calls(both), "build boundary over ci\n", "rt ci again");
}

/// The module that is kept is the one that was compiled, with the words that
/// rattle gave, and those that keep large frames apart.
#[test]
fn the_module_of_an_archive_is_kept() {
    let repository = Repository::new("module");
    repository.calls("build_archive boundary");
    let read = |name: &str| fs::read_to_string(repository.0.join("target/staticlib").join(name)).expect("a file");
    assert_eq!(read("boundary.bc"), "the module of boundary\n");
    let words = "-x ir module.bc -o module.o -mllvm -inline-max-stacksize=2048 \
                 -mllvm -recursive-inline-max-stacksize=64 -mllvm -inline-threshold=130";
    assert_eq!(read("libboundary.a"), format!("{words}\nthe module of boundary\n"));
    assert_eq!(read("boundary.words"), words.replace(' ', "\n") + "\n");
}

/// An archive that rests on a contract which nothing proves is not kept.
#[test]
fn what_is_assumed_is_refused() {
    for assumed in ["axioms libc: assumes::this (1 of the 128 declared)", "logic=proved functions=2 axioms=1 assumes"] {
        let repository = Repository::new("assumed");
        repository.write("crates/boundary/src/lib.rt", assumed);
        let (_, ran) = repository.ask("build_archive boundary", false);
        let said = String::from_utf8_lossy(&ran.stderr).into_owned();
        assert!(ran.status.code() == Some(3) && said.contains("rests on contracts"), "{said}");
        assert!(!repository.0.join("target/staticlib/libboundary.a").exists());
    }
}

#[test]
fn a_program_is_built_where_it_is_gone_too() {
    let repository = Repository::new("program");
    let program = repository.0.join("crates/counter/out/counter");
    assert_eq!(repository.calls("build_program counter"), "run counter\n");
    assert_eq!(repository.calls("build_program counter"), "", "nothing has changed");
    fs::remove_file(&program).expect("a program");
    assert_eq!(repository.calls("build_program counter"), "run counter\n");
    assert!(program.exists());
}

#[test]
fn what_is_built_is_taken_as_it_is() {
    let repository = Repository::new("built");
    for command in ["build_archive boundary", "build_program counter"] {
        let (calls, ran) = repository.ask(command, true);
        let said = String::from_utf8_lossy(&ran.stderr);
        assert_eq!((ran.status.code(), calls.as_str()), (Some(3), ""), "{said}");
        assert!(said.contains("is missing, and WANLOPHENG_BUILT is set"), "{said}");
        repository.calls(command);
        let (calls, ran) = repository.ask(command, true);
        assert_eq!((ran.status.code(), calls.as_str()), (Some(0), ""));
    }
}

/// One line, whatever rt writes of its functions; all of it where it fails.
#[test]
fn a_proof_says_little() {
    let repository = Repository::new("little");
    let (_, ran) = repository.ask("build_archive boundary", false);
    let said = String::from_utf8_lossy(&ran.stderr).into_owned();
    assert_eq!(said.lines().count(), 1, "{said}");
    assert!(said.contains("the first time takes"), "{said}");
    repository.write("crates/low/src/lib.rt", "wrong");
    let (_, ran) = repository.ask("build_archive boundary", false);
    let said = String::from_utf8_lossy(&ran.stderr).into_owned();
    assert_eq!(ran.status.code(), Some(3));
    assert!(said.contains("fn low: not proved\n") && said.ends_with("test: not proved\n"), "{said}");
}
