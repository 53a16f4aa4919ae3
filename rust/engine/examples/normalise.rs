//! `./normalise`: by the proved calls.

use desk::calls::{Calls, Lent};
use engine::{Refusal, Soundness};
use std::process::ExitCode;

/// The proved calls.
struct Proved;

impl Calls for Proved {
    fn unpack(&self, file: &[u8], words: &mut [u32]) -> Result<usize, Refusal> {
        engine::unpack(file, words).answer()
    }

    fn soundness(&self, table: &[u32]) -> Soundness {
        engine::soundness(table)
    }

    fn read(&self, bytes: &[u8], answer: &mut [u32]) -> Result<usize, Refusal> {
        engine::utf8::read(bytes, answer).answer()
    }

    fn trim<'a>(&self, input: &'a [u32]) -> &'a [u32] {
        engine::trim(input)
    }

    fn name_bytes(&self, bytes: &[u8], lent: Lent) -> Result<answers::Name, Refusal> {
        engine::utf8::name(bytes, lent.table, lent.setting, lent.answer, lent.work).answer()
    }

    fn name(&self, input: &[u32], lent: Lent) -> Result<answers::Name, Refusal> {
        engine::name(input, lent.table, lent.setting, lent.answer, lent.work).answer()
    }

    fn label(&self, input: &[u32], lent: Lent) -> Result<answers::Label, Refusal> {
        engine::label(input, lent.table, lent.setting, lent.answer, lent.work).answer()
    }

    fn namehash(&self, input: &[u32], lent: Lent) -> Result<[u8; 32], Refusal> {
        engine::namehash::namehash(input, lent.table, lent.setting, lent.answer, lent.work).answer()
    }

    fn screen(&self, input: &[u32], greek: u32, lent: Lent) -> Result<answers::Name, Refusal> {
        engine::screen::screen(input, lent.table, greek, lent.setting, lent.answer, lent.work).answer()
    }

    fn respelled(&self, label: &[u32], table: &[u32], list: &mut [u32], work: &mut [u32]) -> Result<usize, Refusal> {
        engine::lists::respelled(label, table, list, work).answer()
    }

    fn moved(&self, area: &[u32], table: &[u32], list: &mut [u32], work: &mut [u32]) -> Result<usize, Refusal> {
        engine::lists::moved(area, table, list, work).answer()
    }

    fn report(&self, input: &[u32], out: &mut [u8], lent: Lent) -> Result<usize, Refusal> {
        engine::report::report(input, lent.table, lent.setting, out, lent.work).answer()
    }
}

fn main() -> ExitCode {
    ExitCode::from(desk::normalise::main(&Proved, std::env::args_os().skip(1)))
}
