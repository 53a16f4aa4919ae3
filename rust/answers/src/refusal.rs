//! Refusals by number, and what each number means.

use core::fmt;

/// A refusal: its number, and the place that it names.
#[derive(Clone, Copy, Debug, PartialEq, Eq, Hash)]
pub struct Refusal {
    /// The number that docs/USING.md explains.
    pub number: u32,
    /// An index or a label, as `place_is` says; 0 where the number names no
    /// place.
    pub place: usize,
}

/// What the place of a refusal counts, always from 0.
#[derive(Clone, Copy, Debug, PartialEq, Eq)]
pub enum Place {
    /// The codepoints of the input.
    Codepoint,
    /// The labels of the name.
    Label,
    /// The bytes of the input.
    Byte,
    /// Nothing: it is 0.
    Nothing,
}

impl Refusal {
    /// The refusal of this number at this place.
    pub const fn new(number: u32, place: usize) -> Refusal {
        Refusal { number, place }
    }

    /// What the place counts.
    pub const fn place_is(&self) -> Place {
        match self.number {
            4 | 5 => Place::Codepoint,
            6..=14 | 16 | 17 => Place::Label,
            30 => Place::Byte,
            _ => Place::Nothing,
        }
    }

    /// What the number means.
    pub const fn meaning(&self) -> &'static str {
        match self.number {
            1 => "the table has a layout fault",
            2 => "the work area is too small",
            3 => "the input has too many codepoints",
            4 => "a number that is no Unicode scalar value",
            5 => "a codepoint that names may not have",
            6 => "an empty label",
            7 => "the name is too long in its worked form",
            8 => "a low line after another character",
            9 => "hyphens in the third and fourth place",
            10 => "a fenced character first, last or beside another",
            11 => "a text that starts with a mark",
            12 => "characters that no one script group has together",
            13 => "too many or equal nonspacing marks together",
            14 => "the label looks like another one",
            15 => "the answer buffer is too small",
            16 => "a character with marks that its script group does not list",
            17 => "the label is of a restricted script group",
            20 => "the table file has another version",
            21 => "the table file has a wrong length",
            22 => "the table does not fit the buffer",
            30 => "bytes that are no UTF-8",
            31 => "UTF-8: the answer buffer is too small",
            32 => "the report is longer than its buffer",
            33 => "the list is too small",
            40 => "the area of the payee book has another size",
            41 => "the payee book is damaged",
            42 => "the normal form is empty",
            43 => "the normal form has over 255 codepoints",
            44 => "the name is not filed in the payee book",
            45 => "the payee book is full",
            50 => "NFD, NFC: the full decomposition has too many codepoints",
            51 => "NFD, NFC: the work area is too small",
            52 => "NFD, NFC: the answer buffer is too small",
            _ => "a refusal of another number",
        }
    }
}

/// As in `refusal 5 at codepoint 2: a codepoint that names may not have`.
impl fmt::Display for Refusal {
    fn fmt(&self, f: &mut fmt::Formatter) -> fmt::Result {
        write!(f, "refusal {}", self.number)?;
        match self.place_is() {
            Place::Codepoint => write!(f, " at codepoint {}", self.place)?,
            Place::Label => write!(f, " in label {}", self.place)?,
            Place::Byte => write!(f, " at byte {}", self.place)?,
            Place::Nothing => {}
        }
        write!(f, ": {}", self.meaning())
    }
}

impl core::error::Error for Refusal {}

#[cfg(test)]
mod tests {
    extern crate std;
    use super::*;
    use std::string::ToString;

    #[test]
    fn the_place_is_named() {
        let text = |number, place| Refusal::new(number, place).to_string();
        assert_eq!(text(5, 2), "refusal 5 at codepoint 2: a codepoint that names may not have");
        assert_eq!(text(6, 1), "refusal 6 in label 1: an empty label");
        assert_eq!(text(15, 0), "refusal 15: the answer buffer is too small");
        assert_eq!(text(16, 1), "refusal 16 in label 1: a character with marks that its script group does not list");
        assert_eq!(text(30, 3), "refusal 30 at byte 3: bytes that are no UTF-8");
    }
}
