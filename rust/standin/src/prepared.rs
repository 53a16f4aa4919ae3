//! The plain version over a table that is read once, for many names. It
//! refuses to look at another table.

use compare::Engine;
use plain::calls::{check_work, label_by, name_by};
use plain::{Index, Label, Name, Refusal, Soundness};

pub struct Prepared<'t> {
    words: &'t [u32],
    index: Index<'t>,
}

impl<'t> Prepared<'t> {
    /// `table` is what `plain::parse` made of `words`.
    pub fn new(words: &'t [u32], table: &'t plain::Table<'t>) -> Prepared<'t> {
        Prepared { words, index: Index::new(table) }
    }

    fn index(&self, table: &[u32], work: &[u32]) -> Result<&Index<'t>, Refusal> {
        assert!(std::ptr::eq(self.words, table), "another table");
        check_work(work).map(|()| &self.index)
    }
}

impl Engine for Prepared<'_> {
    fn name(&self, name: &[u32], table: &[u32], answer: &mut [u32], work: &mut [u32]) -> Result<Name, Refusal> {
        name_by(self.index(table, work), 0, name, answer, work)
    }

    fn label(&self, label: &[u32], table: &[u32], answer: &mut [u32], work: &mut [u32]) -> Result<Label, Refusal> {
        label_by(self.index(table, work), 0, label, answer, work)
    }

    fn soundness(&self, table: &[u32]) -> Soundness {
        compare::Plain.soundness(table)
    }

    fn unpack(&self, file: &[u8], answer: &mut [u32]) -> Result<usize, Refusal> {
        compare::Plain.unpack(file, answer)
    }
}
