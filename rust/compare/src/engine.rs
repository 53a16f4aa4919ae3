//! What an engine is: the public calls.

use plain::{Label, Name, Refusal, Soundness};

pub trait Engine {
    fn name(&self, name: &[u32], table: &[u32], answer: &mut [u32], work: &mut [u32]) -> Result<Name, Refusal>;
    fn label(&self, label: &[u32], table: &[u32], answer: &mut [u32], work: &mut [u32]) -> Result<Label, Refusal>;
    fn soundness(&self, table: &[u32]) -> Soundness;
    /// The number of words.
    fn unpack(&self, file: &[u8], answer: &mut [u32]) -> Result<usize, Refusal>;
}
