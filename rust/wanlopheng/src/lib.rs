//! A proved ENSIP-15 name normaliser: the normal form of a name, the kind of
//! each label, or a refusal that says where and why.
//!
//! ```
//! use wanlopheng::{Kind, Table};
//!
//! // A table file of the repository; its words need room that outlives the table.
//! let file = std::fs::read("../../data/names.tab")?;
//! let mut words = vec![0; file.len() / 4 + 1];
//! let table = Table::unpack(&file, &mut words)?;
//! assert!(table.is_sound()); // once, when a table is loaded
//!
//! assert_eq!(table.normalise("Nick.ETH")?, "nick.eth");
//! assert_eq!(table.kind("nick")?, Kind::Ascii);
//!
//! let refusal = table.normalise("a_.eth").unwrap_err();
//! assert_eq!((refusal.number, refusal.place), (8, 0));
//! assert_eq!(refusal.to_string(), "refusal 8 in label 0: a low line after another character");
//! # Ok::<(), Box<dyn std::error::Error>>(())
//! ```
//!
//! The calls behind this crate are proved: for every input, every table, sound
//! or not, and buffers of any size, each answers exactly what its definition
//! gives. What is written here in Rust, reading a `&str` and choosing buffers,
//! is tested.
//!
//! Without the feature `alloc`, which is on by default, nothing allocates:
//! `Buffers` has the room that the calls need.

#![no_std]
#![deny(missing_docs)]

#[cfg(feature = "alloc")]
extern crate alloc;

mod buffers;
mod table;

/// The Rust program of docs/USING.md, run by the tests.
#[cfg(doctest)]
#[doc = include_str!("../../../docs/USING.md")]
struct Guide;

pub use answers::{Kind, Label, Name, Place, Refusal, Soundness};
pub use buffers::{Buffers, Form};
pub use engine::book;
pub use engine::lists;
pub use engine::report;
pub use table::Table;

/// The limits of the calls.
pub mod limits {
    /// Codepoints of an input.
    pub const INPUT: usize = 16_384;
    /// Words of an answer buffer that holds every normal form.
    pub const ANSWER_WORDS: usize = 4_096;
    /// Words of an answer buffer that holds every screen form by a sound table.
    pub const SCREEN_WORDS: usize = 8_192;
    /// Words that a work area needs.
    pub const WORK_WORDS: usize = 8_192;
    /// Words of the largest table.
    pub const TABLE_WORDS: usize = 131_074;
    /// Words of a list that holds an entry for every slot of a payee book.
    pub const MOVED_WORDS: usize = 128;
    /// Words of a list that holds every group.
    pub const GROUPS: usize = 256;
    /// Bytes of a buffer that holds every report.
    pub const REPORT_BYTES: usize = 323_584;
}
