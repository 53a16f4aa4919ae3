//! A plain ENSIP-15 normaliser: the name call, the label call, the soundness
//! check and unpacking, each written directly from the scope document (called
//! 01 in the comments). It is the reference that the proved engine is compared
//! with and the baseline for its speed, so it is clear before it is fast.
//!
//! * `table`: words to fourteen sections, and back.
//! * `lookup`: what the rules ask a table. `Table` answers by reading from the
//!   front; `Index` gives the same answers faster, and so does `Pass`.
//! * `text`: Hangul, classes, decomposition, ordering, composition.
//! * `tokens`: emoji matching and the walk over one label.
//! * `label`: the rules of one label.
//! * `groups`: the search for 12 as a call.
//! * `calls`: the public calls on words and buffers.
//! * `soundness`: the eight rules of the soundness check.
//! * `emoji`: which emoji it was.
//! * `file`: table files.
//! * `book`: the payee book.
//! * `keccak`: Keccak-256.
//! * `lists`: slots that a new table would file differently, groups behind 14.
//! * `namehash`: the name hash of EIP-137.
//! * `pass`: the same lookups by what one pass over the words finds, with the
//!   searches of `records`, the index of `pairs` and the finds of `quick`.
//! * `report`: the report of what was typed.
//! * `screen`: the screen form of a name.
//! * `slow`: the calls by reading from the front, which the others are compared
//!   with.
//! * `trim`: an input without the blanks at its ends.
//! * `utf8`: bytes to codepoints and back, and the byte form of the name call.

pub mod book;
pub mod calls;
pub mod emoji;
pub mod file;
pub mod groups;
pub mod keccak;
pub mod label;
pub mod lists;
pub mod lookup;
pub mod namehash;
mod pairs;
pub mod pass;
mod quick;
pub mod ranges;
mod records;
pub mod report;
pub mod screen;
pub mod slow;
pub mod soundness;
pub mod table;
pub mod text;
pub mod tokens;
pub mod trim;
pub mod utf8;

pub use answers::{Kind, Label, Name, Refusal, Soundness};
pub use calls::{judge_label, judge_label_with, judge_name, judge_name_with};
pub use calls::{label, label_with, name, name_with};
pub use file::{pack, pack_as, unpack, version};
pub use keccak::keccak256;
pub use label::LabelForm;
pub use lookup::{Index, Lookup};
pub use pass::{Found, Pass};
pub use ranges::Ranges;
pub use report::report;
pub use screen::screen;
pub use soundness::{soundness, soundness_report};
pub use table::{layout, parse, Group, LayoutFault, Pairs, Record, Table, TableBuilder, Triples, Whole};
pub use text::{nfc, nfd};
pub use tokens::{tokens, Token};
pub use trim::{trim, BLANKS};
pub use utf8::{name_bytes, utf8_read, utf8_write};

/// The numbers that 01 and 02 name.
pub mod limits {
    /// Words of a table.
    pub const TABLE_WORDS: usize = 131_074;
    /// Groups of a table.
    pub const GROUPS: usize = 256;
    /// Words that a work area needs.
    pub const WORK_WORDS: usize = 8_192;
    /// Codepoints of an input.
    pub const INPUT: usize = 16_384;
    /// Worked length of a name.
    pub const WORKED: usize = 4_096;
    /// Bytes that hold every report: for each codepoint of the input a line, and
    /// for each of the worked length a blank, two braces and eight digits. A line
    /// of an emoji with two places of five digits has 18 bytes, but most places
    /// have fewer digits: as many lines as there may be have 272,696, less than
    /// 17 for each.
    pub const REPORT: usize = 17 * INPUT + 11 * WORKED;
    /// Codepoints of an emoji sequence.
    pub const SEQUENCE: usize = 32;
    /// Codepoints that hold every screen form by a sound table, whose emoji
    /// sequences have no FE0F first and no two together.
    pub const SCREEN: usize = 2 * WORKED;
    /// Codepoints that hold every screen form by any table: what an emoji takes
    /// of the input it gives at most so many times, and a text is no longer than
    /// the worked length.
    pub const SCREEN_ANY: usize = SEQUENCE * INPUT + WORKED;
    /// Non-spacing marks in one run.
    pub const NSM_RUN: usize = 4;
    /// Compound sequences of a group.
    pub const SEQUENCES: u32 = 64;
    /// Codepoints of a compound sequence, at least and at most.
    pub const LEAST_RUN: u32 = 2;
    pub const MOST_RUN: u32 = 8;
}

/// FULL STOP, which parts labels.
pub const STOP: u32 = 0x2E;
/// VARIATION SELECTOR-16, optional in emoji.
pub const FE0F: u32 = 0xFE0F;

/// Is this number a Unicode scalar value?
pub fn is_scalar(c: u32) -> bool {
    c <= 0x10FFFF && !(0xD800..=0xDFFF).contains(&c)
}
