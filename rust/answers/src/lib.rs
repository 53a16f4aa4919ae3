//! What the calls answer: `Ok` with what was found, or `Err` with a refusal.
//! One shape for the plain version, the proved calls and what compares them.

#![no_std]
#![deny(missing_docs)]

mod refusal;

pub use refusal::{Place, Refusal};

/// What the name call answers for an accepted name.
#[derive(Clone, Copy, Debug, PartialEq, Eq)]
pub struct Name {
    /// The number of codepoints of the normal form.
    pub length: usize,
    /// The number of labels.
    pub labels: usize,
}

/// What the label call answers for an accepted label.
#[derive(Clone, Copy, Debug, PartialEq, Eq)]
pub struct Label {
    /// The number of codepoints of the normal form.
    pub length: usize,
    /// What the label consists of.
    pub kind: Kind,
}

/// The kind of a label.
#[derive(Clone, Copy, Debug, PartialEq, Eq, Hash)]
pub enum Kind {
    /// Emoji alone.
    Emoji,
    /// ASCII alone.
    Ascii,
    /// Characters of a group.
    Group {
        /// The number of the group in the table, counted from 0.
        number: usize,
        /// Whether the table says that the group is restricted.
        restricted: bool,
    },
}

/// What the soundness check answers.
#[derive(Clone, Copy, Debug, PartialEq, Eq)]
pub enum Soundness {
    /// No rule is broken.
    Sound,
    /// The lowest broken rule; 0 for a layout fault.
    Broken(u32),
}

/// A group that holds a text.
#[derive(Clone, Copy, Debug, PartialEq, Eq)]
pub struct Found {
    /// Its number, counted from 0.
    pub number: usize,
    /// It is restricted.
    pub restricted: bool,
    /// Its combining marks are whitelisted.
    pub whitelisted: bool,
}

/// What the search for the group of a text answers.
#[derive(Clone, Copy, Debug, PartialEq, Eq)]
pub struct Search {
    /// The first group that holds every character of the text.
    pub group: Option<Found>,
    /// How often it was asked whether a group holds a character: once for each
    /// place of the text up to and with the first missing one, in each group up
    /// to the first that holds all.
    pub asked: usize,
}
