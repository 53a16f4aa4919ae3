//! The plain version as an engine, its slow ways, and the same rules over the
//! index and by the pass.

use crate::engine::Engine;
use plain::calls::{check_work, label_by, name_by};
use plain::{parse, Index, Label, Name, Pass, Refusal, Soundness};

/// The public calls of the plain version: with the pass at the start of each.
pub struct Plain;

impl Engine for Plain {
    fn name(&self, name: &[u32], table: &[u32], answer: &mut [u32], work: &mut [u32]) -> Result<Name, Refusal> {
        plain::name(name, table, answer, work)
    }
    fn label(&self, label: &[u32], table: &[u32], answer: &mut [u32], work: &mut [u32]) -> Result<Label, Refusal> {
        plain::label(label, table, answer, work)
    }
    fn soundness(&self, table: &[u32]) -> Soundness {
        plain::soundness(table)
    }
    fn unpack(&self, file: &[u8], answer: &mut [u32]) -> Result<usize, Refusal> {
        plain::unpack(file, answer)
    }
}

/// Its slow ways: every lookup from the front of its section.
pub struct Slow;

impl Engine for Slow {
    fn name(&self, name: &[u32], table: &[u32], answer: &mut [u32], work: &mut [u32]) -> Result<Name, Refusal> {
        plain::slow::name(name, table, answer, work)
    }
    fn label(&self, label: &[u32], table: &[u32], answer: &mut [u32], work: &mut [u32]) -> Result<Label, Refusal> {
        plain::slow::label(label, table, answer, work)
    }
    fn soundness(&self, table: &[u32]) -> Soundness {
        Plain.soundness(table)
    }
    fn unpack(&self, file: &[u8], answer: &mut [u32]) -> Result<usize, Refusal> {
        Plain.unpack(file, answer)
    }
}

/// The job over the index of a table, or with refusal 1 or 2.
fn with_index<R>(words: &[u32], work: &mut [u32], job: impl FnOnce(Result<&Index, Refusal>, &mut [u32]) -> R) -> R {
    let Some(table) = parse(words) else {
        return job(Err(Refusal::new(1, 0)), work);
    };
    let index = Index::new(&table);
    job(check_work(work).map(|()| &index), work)
}

/// The plain rules over `Index`: shows that the index gives what reading from
/// the front gives.
pub struct Indexed;

impl Engine for Indexed {
    fn name(&self, name: &[u32], table: &[u32], answer: &mut [u32], work: &mut [u32]) -> Result<Name, Refusal> {
        with_index(table, work, |index, work| name_by(index, 0, name, answer, work))
    }
    fn label(&self, label: &[u32], table: &[u32], answer: &mut [u32], work: &mut [u32]) -> Result<Label, Refusal> {
        with_index(table, work, |index, work| label_by(index, 0, label, answer, work))
    }
    fn soundness(&self, table: &[u32]) -> Soundness {
        Plain.soundness(table)
    }
    fn unpack(&self, file: &[u8], answer: &mut [u32]) -> Result<usize, Refusal> {
        Plain.unpack(file, answer)
    }
}

/// The job by the pass over a table, rules 6 to 8 looked for, or with refusal 1
/// or 2.
fn with_pass<R>(words: &[u32], work: &mut [u32], job: impl FnOnce(Result<&Pass, Refusal>, &mut [u32]) -> R) -> R {
    let Some(mut pass) = Pass::read(words) else {
        return job(Err(Refusal::new(1, 0)), work);
    };
    pass.look_for_rules();
    job(check_work(work).map(|()| &pass), work)
}

/// The plain rules over `Pass`, rules 6 to 8 looked for however short the input
/// is.
pub struct Passed;

impl Engine for Passed {
    fn name(&self, name: &[u32], table: &[u32], answer: &mut [u32], work: &mut [u32]) -> Result<Name, Refusal> {
        with_pass(table, work, |pass, work| name_by(pass, 0, name, answer, work))
    }
    fn label(&self, label: &[u32], table: &[u32], answer: &mut [u32], work: &mut [u32]) -> Result<Label, Refusal> {
        with_pass(table, work, |pass, work| label_by(pass, 0, label, answer, work))
    }
    fn soundness(&self, table: &[u32]) -> Soundness {
        Plain.soundness(table)
    }
    fn unpack(&self, file: &[u8], answer: &mut [u32]) -> Result<usize, Refusal> {
        Plain.unpack(file, answer)
    }
}
