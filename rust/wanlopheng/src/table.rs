//! A table, and the calls by it.

use crate::{Label, Name, Refusal, Soundness};

/// The words of a table: what names may have, and what becomes of it.
#[derive(Clone, Copy, Debug)]
pub struct Table<'w>(&'w [u32]);

impl<'w> Table<'w> {
    /// The table of these words. Any words will do: where they are no table,
    /// each call refuses with 1.
    pub const fn new(words: &'w [u32]) -> Table<'w> {
        Table(words)
    }

    /// The table of a file, unpacked into `room`, which needs a word for each
    /// four bytes of the file, and one more where the file is of version 1.
    /// Refusals: 20, 21, 22.
    pub fn unpack(file: &[u8], room: &'w mut [u32]) -> Result<Table<'w>, Refusal> {
        let count = engine::unpack(file, room).answer()?;
        Ok(Table(&room[..count]))
    }

    /// The words.
    pub const fn words(&self) -> &'w [u32] {
        self.0
    }

    /// Checks the table for soundness. Only by a sound table is a normal form
    /// its own normal form.
    pub fn soundness(&self) -> Soundness {
        engine::soundness(self.0)
    }

    /// Whether the table is sound.
    pub fn is_sound(&self) -> bool {
        self.soundness() == Soundness::Sound
    }

    /// The name call on codepoints. After success `answer` holds the normal
    /// form and then zeros, after a refusal zeros; `work`, of at least
    /// `limits::WORK_WORDS` words, holds zeros either way. Refusals: 1 to 16.
    pub fn name(&self, input: &[u32], answer: &mut [u32], work: &mut [u32]) -> Result<Name, Refusal> {
        self.name_with(0, input, answer, work)
    }

    /// The name call with a setting: with one other than 0, labels of
    /// restricted groups are refused as 17.
    pub fn name_with(
        &self,
        setting: u32,
        input: &[u32],
        answer: &mut [u32],
        work: &mut [u32],
    ) -> Result<Name, Refusal> {
        engine::name(input, self.0, setting, answer, work).answer()
    }

    /// The name call with a setting, and the name hash of EIP-137 of its
    /// normal form. By a table that breaks soundness rule 1, refusal 4 can come
    /// last, with its index in the normal form.
    pub fn namehash_with(
        &self,
        setting: u32,
        input: &[u32],
        answer: &mut [u32],
        work: &mut [u32],
    ) -> Result<(Name, [u8; 32]), Refusal> {
        let given = engine::namehash::namehash(input, self.0, setting, answer, work);
        Ok((given.name.answer()?, given.answer()?))
    }

    /// The screen form of a name: emoji with every FE0F of their sequence, and
    /// 39E for 3BE in text of labels that are not Greek. `greek` is the number
    /// of the Greek group, or one that the table does not have. Refusals and
    /// buffers as for a name with this setting; 15 is judged on the screen form.
    pub fn screen_with(
        &self,
        greek: u32,
        setting: u32,
        input: &[u32],
        answer: &mut [u32],
        work: &mut [u32],
    ) -> Result<Name, Refusal> {
        engine::screen::screen(input, self.0, greek, setting, answer, work).answer()
    }

    /// The label call on codepoints, the buffers as for a name. A full stop is
    /// refused with 5.
    pub fn label(&self, input: &[u32], answer: &mut [u32], work: &mut [u32]) -> Result<Label, Refusal> {
        self.label_with(0, input, answer, work)
    }

    /// The label call with a setting, as for a name.
    pub fn label_with(
        &self,
        setting: u32,
        input: &[u32],
        answer: &mut [u32],
        work: &mut [u32],
    ) -> Result<Label, Refusal> {
        engine::label(input, self.0, setting, answer, work).answer()
    }

    /// The normal form of a name.
    #[cfg(feature = "alloc")]
    pub fn normalise(&self, name: &str) -> Result<alloc::string::String, Refusal> {
        let mut buffers = alloc::boxed::Box::new(crate::Buffers::new());
        Ok(buffers.name(*self, name)?.chars().collect())
    }

    /// The name hash of EIP-137 of the normal form of a name.
    #[cfg(feature = "alloc")]
    pub fn namehash(&self, name: &str) -> Result<[u8; 32], Refusal> {
        let mut buffers = alloc::boxed::Box::new(crate::Buffers::new());
        Ok(buffers.namehash(*self, name)?.1)
    }

    /// The screen form of a name, for a screen alone; `greek` is the number of
    /// the Greek group.
    #[cfg(feature = "alloc")]
    pub fn screen(&self, greek: u32, name: &str) -> Result<alloc::string::String, Refusal> {
        let mut buffers = alloc::boxed::Box::new(crate::Buffers::new());
        // Enough by a table that is not sound too: an emoji has 32 codepoints.
        let codepoints = name.chars().count().min(crate::limits::INPUT);
        let mut answer = alloc::vec![0; 32 * codepoints + crate::limits::ANSWER_WORDS];
        Ok(buffers.screen(*self, greek, name, &mut answer)?.chars().collect())
    }

    /// The report of a name on codepoints, with a setting: a line for each token,
    /// as `report::report` writes it. Answers the bytes written.
    pub fn report_with(&self, setting: u32, input: &[u32], out: &mut [u8], work: &mut [u32]) -> Result<usize, Refusal> {
        engine::report::report(input, self.0, setting, out, work).answer()
    }

    /// The report of a name: a line for each token, with the places where its
    /// input starts and ends in the name, in codepoints.
    #[cfg(feature = "alloc")]
    pub fn report(&self, name: &str) -> Result<alloc::string::String, Refusal> {
        let input: alloc::vec::Vec<u32> = name.chars().map(u32::from).collect();
        let mut out = alloc::vec![0; crate::limits::REPORT_BYTES];
        let length = self.report_with(0, &input, &mut out, &mut alloc::vec![0; crate::limits::WORK_WORDS])?;
        Ok(out[..length].iter().map(|&byte| char::from(byte)).collect())
    }

    /// The kind of a label.
    #[cfg(feature = "alloc")]
    pub fn kind(&self, label: &str) -> Result<crate::Kind, Refusal> {
        let mut buffers = alloc::boxed::Box::new(crate::Buffers::new());
        Ok(buffers.label(*self, label)?.1)
    }
}
