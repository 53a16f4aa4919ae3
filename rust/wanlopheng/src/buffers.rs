//! The calls on text, with buffers that are large enough.

use crate::{limits, Kind, Refusal, Table};
use core::fmt;

/// Room for every name: some 28 KB, which can be used again and again.
#[derive(Clone, Debug)]
pub struct Buffers {
    /// One more than a name may have, so that a longer one is seen to be.
    input: [u32; limits::INPUT + 1],
    answer: [u32; limits::ANSWER_WORDS],
    work: [u32; limits::WORK_WORDS],
}

impl Default for Buffers {
    fn default() -> Buffers {
        Buffers::new()
    }
}

impl Buffers {
    /// Buffers full of zeros.
    pub const fn new() -> Buffers {
        Buffers { input: [0; limits::INPUT + 1], answer: [0; limits::ANSWER_WORDS], work: [0; limits::WORK_WORDS] }
    }

    /// The normal form of a name.
    ///
    /// ```
    /// use wanlopheng::{Buffers, Table};
    /// # let file = std::fs::read("../../data/names.tab")?;
    /// # let mut words = vec![0; file.len() / 4 + 1];
    /// # let table = Table::unpack(&file, &mut words)?;
    /// let mut buffers = Buffers::new();
    /// let form = buffers.name(table, "Nick.ETH")?;
    /// assert_eq!((form.labels(), form.codepoints().len()), (2, 8));
    /// assert!(form.chars().eq("nick.eth".chars()));
    /// assert_eq!(form.to_string(), "nick.eth");
    /// # Ok::<(), Box<dyn std::error::Error>>(())
    /// ```
    pub fn name(&mut self, table: Table, name: &str) -> Result<Form<'_>, Refusal> {
        let length = self.read(name);
        let given = table.name(&self.input[..length], &mut self.answer, &mut self.work);
        self.input[..length].fill(0);
        let given = given?;
        Ok(Form { codepoints: &self.answer[..given.length], labels: given.labels })
    }

    /// The normal form of a name, and its hash by EIP-137.
    pub fn namehash(&mut self, table: Table, name: &str) -> Result<(Form<'_>, [u8; 32]), Refusal> {
        let length = self.read(name);
        let given = table.namehash_with(0, &self.input[..length], &mut self.answer, &mut self.work);
        self.input[..length].fill(0);
        let (given, node) = given?;
        Ok((Form { codepoints: &self.answer[..given.length], labels: given.labels }, node))
    }

    /// The screen form of a name, written into `answer`; by a sound table
    /// `limits::SCREEN_WORDS` words hold it. `greek` is the number of the Greek
    /// group.
    pub fn screen<'a>(
        &mut self,
        table: Table,
        greek: u32,
        name: &str,
        answer: &'a mut [u32],
    ) -> Result<Form<'a>, Refusal> {
        let length = self.read(name);
        let given = table.screen_with(greek, 0, &self.input[..length], answer, &mut self.work);
        self.input[..length].fill(0);
        let given = given?;
        Ok(Form { codepoints: &answer[..given.length], labels: given.labels })
    }

    /// The normal form of one label, and its kind.
    pub fn label(&mut self, table: Table, label: &str) -> Result<(Form<'_>, Kind), Refusal> {
        let length = self.read(label);
        let given = table.label(&self.input[..length], &mut self.answer, &mut self.work);
        self.input[..length].fill(0);
        let given = given?;
        Ok((Form { codepoints: &self.answer[..given.length], labels: 1 }, given.kind))
    }

    /// Puts the codepoints of a text into the input: their number, at most one
    /// more than the limit, which is then refused with 3.
    fn read(&mut self, text: &str) -> usize {
        let mut length = 0;
        for (word, c) in self.input.iter_mut().zip(text.chars()) {
            *word = u32::from(c);
            length += 1;
        }
        length
    }
}

/// A normal form, or a screen form. `Display` writes it as text.
#[derive(Clone, Copy, Debug, PartialEq, Eq)]
pub struct Form<'a> {
    codepoints: &'a [u32],
    labels: usize,
}

impl<'a> Form<'a> {
    /// The codepoints.
    pub const fn codepoints(&self) -> &'a [u32] {
        self.codepoints
    }

    /// The number of labels; the empty name has none.
    pub const fn labels(&self) -> usize {
        self.labels
    }

    /// The characters. By a table that breaks soundness rule 1 a normal form
    /// may hold numbers that are none: U+FFFD stands for them.
    pub fn chars(&self) -> impl Iterator<Item = char> + 'a {
        self.codepoints.iter().map(|&c| char::from_u32(c).unwrap_or(char::REPLACEMENT_CHARACTER))
    }
}

impl fmt::Display for Form<'_> {
    fn fmt(&self, f: &mut fmt::Formatter) -> fmt::Result {
        self.chars().try_for_each(|c| fmt::Write::write_char(f, c))
    }
}
