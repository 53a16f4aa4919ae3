//! One engine over one table, with the buffers watched.

use compare::Engine;
use maker::Spec;
use plain::{Kind, Refusal};

/// What a call gave: the normal form and the other value, or a refusal.
pub type Given<T> = Result<(Vec<u32>, T), Refusal>;

/// `Emoji`, `ASCII` or the name of the group, as ENSIP-15 has them.
pub fn kind_name(kind: Kind, spec: &Spec) -> String {
    match kind {
        Kind::Emoji => "Emoji".into(),
        Kind::Ascii => "ASCII".into(),
        Kind::Group { number, restricted } => {
            let group = &spec.groups[number];
            assert_eq!(group.restricted, restricted, "{}", group.name);
            group.name.clone()
        }
    }
}

/// More than any answer needs.
pub const ROOM: usize = plain::limits::WORKED + 8;

pub struct Desk<'a> {
    engine: &'a dyn Engine,
    table: &'a [u32],
    answer: Vec<u32>,
    work: Vec<u32>,
}

impl<'a> Desk<'a> {
    pub fn new(engine: &'a dyn Engine, table: &'a [u32]) -> Desk<'a> {
        Desk { engine, table, answer: Vec::new(), work: Vec::new() }
    }

    /// Both buffers as if another name had been there before.
    fn soil(&mut self, room: usize) {
        self.answer.resize(room, 0);
        self.answer.fill(0x6C6F_6674);
        self.work.resize(plain::limits::WORK_WORDS, 0);
        self.work.fill(0x6C6F_6674);
    }

    /// The normal form of this length, 0 after a refusal; nothing else may be
    /// left in either buffer.
    fn taken(&self, length: usize, what: &[u32]) -> Vec<u32> {
        let (answer, rest) = self.answer.split_at(length);
        assert!(rest.iter().all(|&w| w == 0), "answer buffer after {what:X?}");
        assert!(self.work.iter().all(|&w| w == 0), "work area after {what:X?}");
        answer.to_vec()
    }

    /// The normal form and the number of labels.
    pub fn name(&mut self, name: &[u32]) -> Given<usize> {
        self.name_in(name, ROOM)
    }

    /// The name call with an answer buffer of so many words.
    pub fn name_in(&mut self, name: &[u32], room: usize) -> Given<usize> {
        self.soil(room);
        let given = self.engine.name(name, self.table, &mut self.answer, &mut self.work);
        let answer = self.taken(given.map_or(0, |n| n.length), name);
        given.map(|n| (answer, n.labels))
    }

    /// The normal form and the kind.
    pub fn label(&mut self, label: &[u32]) -> Given<Kind> {
        self.soil(ROOM);
        let given = self.engine.label(label, self.table, &mut self.answer, &mut self.work);
        let answer = self.taken(given.map_or(0, |l| l.length), label);
        given.map(|l| (answer, l.kind))
    }

    /// The kinds of an accepted name's labels, in order. The label call has to
    /// give each label's part of the answer.
    pub fn kinds(&mut self, name: &[u32], answer: &[u32]) -> Vec<Kind> {
        if name.is_empty() {
            assert!(answer.is_empty());
            return Vec::new();
        }
        let mut kinds = Vec::new();
        let mut joined = Vec::new();
        for (i, part) in name.split(|&c| c == plain::STOP).enumerate() {
            let (form, kind) = self.label(part).unwrap_or_else(|r| panic!("label {i} of {name:X?}: {r}"));
            if i > 0 {
                joined.push(plain::STOP);
            }
            joined.extend(form);
            kinds.push(kind);
        }
        assert_eq!(joined, answer, "the labels' answers of {name:X?}");
        kinds
    }

    /// An accepted name's answer, handed in again, is the same, with as many
    /// labels, of these kinds.
    pub fn keeps(&mut self, name: &[u32], first: &(Vec<u32>, usize), kinds: &[Kind]) {
        let (answer, labels) = first;
        assert_eq!(kinds.len(), *labels, "labels of {name:X?}");
        assert_eq!(self.name(answer).as_ref(), Ok(first), "again: {name:X?}");
        assert_eq!(self.kinds(answer, answer), kinds, "kinds again: {name:X?}");
    }

    /// The same with the kinds of the name's own labels, which are answered.
    pub fn again(&mut self, name: &[u32], first: &(Vec<u32>, usize)) -> Vec<Kind> {
        let kinds = self.kinds(name, &first.0);
        self.keeps(name, first, &kinds);
        kinds
    }
}
