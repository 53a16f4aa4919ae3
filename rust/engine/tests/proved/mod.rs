//! The exported calls as an engine that can be held against another. Every
//! value beside a refusal is seen to be 0.

use answers::{Refusal, Soundness};
use compare::Engine;
use engine::{Label, Name, Unpacked};

/// The exported calls.
pub struct Proved;

impl Engine for Proved {
    fn name(
        &self,
        name: &[u32],
        table: &[u32],
        answer: &mut [u32],
        work: &mut [u32],
    ) -> Result<answers::Name, Refusal> {
        let r = engine::name(name, table, 0, answer, work);
        let Name { number, place, .. } = r;
        assert_eq!(r, if number == 0 { Name { place: 0, ..r } } else { Name { number, place, length: 0, labels: 0 } });
        r.answer()
    }

    fn label(
        &self,
        label: &[u32],
        table: &[u32],
        answer: &mut [u32],
        work: &mut [u32],
    ) -> Result<answers::Label, Refusal> {
        let r = engine::label(label, table, 0, answer, work);
        let Label { number, place, length, kind, .. } = r;
        let due = match (number, kind) {
            (0, 3) => Label { place: 0, ..r },
            (0, _) => Label { number, place: 0, length, kind, group: 0, restricted: 0 },
            _ => Label { number, place, length: 0, kind: 0, group: 0, restricted: 0 },
        };
        assert_eq!(r, due);
        assert!(r.restricted <= 1);
        r.answer()
    }

    fn soundness(&self, table: &[u32]) -> Soundness {
        engine::soundness(table)
    }

    fn unpack(&self, file: &[u8], answer: &mut [u32]) -> Result<usize, Refusal> {
        let r = engine::unpack(file, answer);
        assert!(r.number == 0 || r == Unpacked { number: r.number, count: 0 });
        r.answer()
    }
}
