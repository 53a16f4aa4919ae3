//! The commands of a desk: `./normalise`, which shows what the calls answer in
//! words, and `./run`, which says why the line program wrote `bad`.
//!
//! * `calls`: the calls that `./normalise` makes, and the plain version of them.
//! * `options`: what its command line asks for.
//! * `names`: the names of the groups, from the file beside a table.
//! * `judged`: what the calls answer for one name.
//! * `screen`: text that is safe to show, and carets below it.
//! * `told`, `json`: an answer in words, and for programs.
//! * `moved`: the payees of a book that a table would file differently.
//! * `normalise`: the command itself.
//! * `lines`: why a line is unreadable for the line program.

pub mod calls;
pub mod json;
pub mod judged;
pub mod lines;
pub mod moved;
pub mod names;
pub mod normalise;
pub mod options;
pub mod screen;
pub mod told;

/// A file of the repository.
pub fn in_repository(path: &str) -> std::path::PathBuf {
    let root = std::path::Path::new(env!("CARGO_MANIFEST_DIR")).join("../..");
    root.canonicalize().unwrap_or(root).join(path)
}
