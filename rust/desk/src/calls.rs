//! The calls that `./normalise` makes.

use answers::{Label, Name, Refusal, Soundness};

/// A table, the setting and the buffers of a call.
pub struct Lent<'a> {
    pub table: &'a [u32],
    pub setting: u32,
    pub answer: &'a mut [u32],
    pub work: &'a mut [u32],
}

/// One version of the calls.
pub trait Calls {
    fn unpack(&self, file: &[u8], words: &mut [u32]) -> Result<usize, Refusal>;
    fn soundness(&self, table: &[u32]) -> Soundness;
    fn read(&self, bytes: &[u8], answer: &mut [u32]) -> Result<usize, Refusal>;
    fn trim<'a>(&self, input: &'a [u32]) -> &'a [u32];
    fn name_bytes(&self, bytes: &[u8], lent: Lent) -> Result<Name, Refusal>;
    fn name(&self, input: &[u32], lent: Lent) -> Result<Name, Refusal>;
    fn label(&self, input: &[u32], lent: Lent) -> Result<Label, Refusal>;
    fn namehash(&self, input: &[u32], lent: Lent) -> Result<[u8; 32], Refusal>;
    /// The screen form; `greek` is the number of the Greek group.
    fn screen(&self, input: &[u32], greek: u32, lent: Lent) -> Result<Name, Refusal>;
    /// The groups in which a label could be respelled: how many, and the list.
    fn respelled(&self, label: &[u32], table: &[u32], list: &mut [u32], work: &mut [u32]) -> Result<usize, Refusal>;
    /// The slots of a book that the table would file differently, likewise.
    fn moved(&self, area: &[u32], table: &[u32], list: &mut [u32], work: &mut [u32]) -> Result<usize, Refusal>;
    /// Into `out`; the answer buffer is not used.
    fn report(&self, input: &[u32], out: &mut [u8], lent: Lent) -> Result<usize, Refusal>;
}

/// The plain version.
pub struct Plain;

impl Calls for Plain {
    fn unpack(&self, file: &[u8], words: &mut [u32]) -> Result<usize, Refusal> {
        plain::unpack(file, words)
    }

    fn soundness(&self, table: &[u32]) -> Soundness {
        plain::soundness(table)
    }

    fn read(&self, bytes: &[u8], answer: &mut [u32]) -> Result<usize, Refusal> {
        plain::utf8_read(bytes, answer)
    }

    fn trim<'a>(&self, input: &'a [u32]) -> &'a [u32] {
        plain::trim(input)
    }

    fn name_bytes(&self, bytes: &[u8], lent: Lent) -> Result<Name, Refusal> {
        plain::name_bytes(bytes, lent.table, lent.setting, lent.answer, lent.work)
    }

    fn name(&self, input: &[u32], lent: Lent) -> Result<Name, Refusal> {
        plain::name_with(input, lent.table, lent.setting, lent.answer, lent.work)
    }

    fn label(&self, input: &[u32], lent: Lent) -> Result<Label, Refusal> {
        plain::label_with(input, lent.table, lent.setting, lent.answer, lent.work)
    }

    fn namehash(&self, input: &[u32], lent: Lent) -> Result<[u8; 32], Refusal> {
        let (named, hash) = plain::namehash::namehash_with(input, lent.table, lent.setting, lent.answer, lent.work);
        named.map(|_| hash)
    }

    fn screen(&self, input: &[u32], greek: u32, lent: Lent) -> Result<Name, Refusal> {
        plain::screen(input, lent.table, greek, lent.setting, lent.answer, lent.work)
    }

    fn respelled(&self, label: &[u32], table: &[u32], list: &mut [u32], work: &mut [u32]) -> Result<usize, Refusal> {
        plain::lists::respelled(label, table, list, work)
    }

    fn moved(&self, area: &[u32], table: &[u32], list: &mut [u32], work: &mut [u32]) -> Result<usize, Refusal> {
        plain::lists::moved(area, table, list, work)
    }

    fn report(&self, input: &[u32], out: &mut [u8], lent: Lent) -> Result<usize, Refusal> {
        plain::report(input, lent.table, lent.setting, out, lent.work)
    }
}
