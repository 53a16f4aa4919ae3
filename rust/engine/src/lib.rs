//! Safe calls of the proved library. That the declarations of `raw` fit the
//! archives is all that is assumed here: everything behind them is proved, for
//! every input. What a call answers has the fields that include/wanlopheng.h
//! declares; `answer` gives the same as a `Result`.

#![no_std]

pub mod book;
pub mod emoji;
pub mod keccak;
pub mod lists;
pub mod namehash;
pub mod normal_forms;
mod raw;
pub mod report;
pub mod screen;
pub mod utf8;

pub use answers::{Kind, Refusal, Soundness};
pub use raw::{Checked, Group, Label, Part};

/// What was found, or the refusal of this number where it is not 0.
fn unless<T>(number: u32, place: usize, found: T) -> Result<T, Refusal> {
    match number {
        0 => Ok(found),
        _ => Err(Refusal::new(number, place)),
    }
}

/// What unpacking answers. `number` is 0, or 20, 21 or 22 for a refusal;
/// beside a refusal `count` is 0.
#[repr(C)]
#[derive(Clone, Copy, Debug, PartialEq, Eq)]
pub struct Unpacked {
    /// 0, 20, 21 or 22.
    pub number: u32,
    /// The number of words.
    pub count: usize,
}

impl Unpacked {
    /// The number of words, or the refusal.
    pub fn answer(self) -> Result<usize, Refusal> {
        unless(self.number, 0, self.count)
    }
}

/// Unpacks a table file, of version 1 to 4. To one of version 1 two words are
/// added and to one of version 2 one, the 0 of each section that it lacks: they
/// are counted and need their room. Words past the table are zero; after a
/// refusal all are.
pub fn unpack(file: &[u8], answer: &mut [u32]) -> Unpacked {
    raw::unpack(file, answer)
}

/// Whether the words of a table have a layout fault.
pub fn layout_fault(words: &[u32]) -> bool {
    raw::layout_fault(words) != 0
}

/// What the name call and the screen form answer. `number` is 0, or the number
/// of the refusal; beside a refusal `length` and `labels` are 0.
#[repr(C)]
#[derive(Clone, Copy, Debug, PartialEq, Eq)]
pub struct Name {
    /// 0, or the number of the refusal.
    pub number: u32,
    /// The place that the refusal names, else 0.
    pub place: usize,
    /// Codepoints of the normal form, or of the screen form.
    pub length: usize,
    /// The number of labels.
    pub labels: usize,
}

impl Name {
    /// Length and labels, or the refusal.
    pub fn answer(self) -> Result<answers::Name, Refusal> {
        unless(self.number, self.place, answers::Name { length: self.length, labels: self.labels })
    }
}

impl Label {
    /// The kind; `None` beside a refusal.
    pub fn kind(self) -> Option<Kind> {
        match self.kind {
            1 => Some(Kind::Emoji),
            2 => Some(Kind::Ascii),
            3 => Some(Kind::Group { number: self.group, restricted: self.restricted != 0 }),
            _ => None,
        }
    }

    /// Length and kind, or the refusal.
    pub fn answer(self) -> Result<answers::Label, Refusal> {
        unless(self.number, self.place, self.length)
            .map(|length| answers::Label { length, kind: self.kind().expect("an accepted label has a kind") })
    }
}

/// Normalises a name. After success `answer` holds the normal form and then
/// zeros, after a refusal zeros; `work` holds zeros either way. With a setting
/// other than 0, labels of restricted groups are refused as 17.
pub fn name(input: &[u32], table: &[u32], setting: u32, answer: &mut [u32], work: &mut [u32]) -> Name {
    raw::name(input, table, setting, answer, work)
}

/// Normalises one label; the setting and the buffers as for a name.
pub fn label(input: &[u32], table: &[u32], setting: u32, answer: &mut [u32], work: &mut [u32]) -> Label {
    raw::label(input, table, setting, answer, work)
}

/// The part of the input that remains when 9, A, D and 20 are taken off both
/// ends: a part of the slice itself, for an input of blanks the empty one at its
/// end. No other call trims.
///
/// ```
/// assert_eq!(engine::trim(&[0x20, 0x61, 0x20, 0x62, 0xA]), [0x61, 0x20, 0x62]);
/// ```
pub fn trim(input: &[u32]) -> &[u32] {
    let part = raw::trim(input);
    &input[part.start..part.start + part.length]
}

impl Group {
    /// The group and the number of questions, or the refusal.
    pub fn answer(self) -> Result<answers::Search, Refusal> {
        let found =
            answers::Found { number: self.group, restricted: self.restricted != 0, whitelisted: self.whitelisted != 0 };
        let group = (self.found != 0).then_some(found);
        unless(self.number, self.place, answers::Search { group, asked: self.asked })
    }
}

/// Finds the first group of a table that holds every character of a text, and
/// says how often it asked whether a group holds a character.
pub fn group(text: &[u32], table: &[u32]) -> Group {
    raw::group(text, table)
}

/// Checks the words of a table for soundness.
pub fn soundness(words: &[u32]) -> Soundness {
    match raw::soundness(words) {
        Checked { sound: 0, rule } => Soundness::Broken(rule),
        _ => Soundness::Sound,
    }
}
