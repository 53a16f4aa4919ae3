//! Runs any engine on the full-size table and on names.tab: the cases of
//! "Names at the counter", the examples of ENSIP-15, every codepoint, random
//! names of real characters, Unicode's NormalizationTest, and the published
//! validation tests.
//!
//! The tables are made from stand-in files, not from the published ones; see
//! docs/STANDIN.md. Another engine is run by handing it to the same functions:
//! `cases::run(&engine, ..)`, and `bulk::codepoints(&engine, Some(prepared), ..)`
//! and `bulk::random_names`, which hold it against the plain version.

pub mod bulk;
pub mod cases;
pub mod desk;
pub mod forms;
pub mod looks;
pub mod paths;
pub mod prepared;
pub mod screens;
pub mod shards;
pub mod validation;

pub use desk::Desk;
pub use prepared::Prepared;

use maker::{Nf, Reduction, Spec};
use std::path::PathBuf;

/// The repository's data folder.
pub fn data() -> PathBuf {
    PathBuf::from(concat!(env!("CARGO_MANIFEST_DIR"), "/../../data"))
}

/// A text file of the data folder, which has to be there.
pub fn text(path: &str) -> String {
    std::fs::read_to_string(data().join(path)).unwrap_or_else(|e| panic!("data/{path}: {e}"))
}

/// spec.json and nf.json: the published files where data/published has both,
/// else the stand-in.
pub fn source() -> (Spec, Nf) {
    let published = data().join("published");
    let there = published.join("spec.json").exists() && published.join("nf.json").exists();
    let folder = if there { "published" } else { "standin" };
    println!("tables from data/{folder}");
    let spec = Spec::read(&text(&format!("{folder}/spec.json"))).expect("spec.json");
    let nf = Nf::read(&text(&format!("{folder}/nf.json"))).expect("nf.json");
    (spec, nf)
}

/// The options that cut names.tab.
pub fn names_reduction() -> Reduction {
    let options: Vec<String> = text("names.args").split_whitespace().map(str::to_string).collect();
    Reduction::from_options(&options).expect("names.args")
}

/// A table with the files it is made of.
pub struct Made {
    pub spec: Spec,
    pub nf: Nf,
    pub words: Vec<u32>,
}

impl Made {
    /// The job's answer by the plain version over this table.
    pub fn prepared<R>(&self, job: impl FnOnce(&Prepared) -> R) -> R {
        let table = plain::parse(&self.words).expect("layout");
        job(&Prepared::new(&self.words, &table))
    }
}

/// The full-size table.
pub fn full() -> Made {
    let (spec, nf) = source();
    let words = maker::make(&spec, &nf).to_words();
    Made { spec, nf, words }
}

/// The table of the line program.
pub fn names() -> Made {
    let (spec, nf) = source();
    let (spec, nf) = names_reduction().apply(&spec, &nf).expect("names.args");
    let words = maker::make(&spec, &nf).to_words();
    Made { spec, nf, words }
}
