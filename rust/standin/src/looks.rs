//! Names as people might have them, by the thousand, and the validation names.

use crate::{cases, data, validation, Made};
use gen::Rng;

/// How many of a hundred labels are of which kind.
const KINDS: [(usize, Kind); 17] = [
    (40, Kind::Word),
    (8, Kind::Capitals),
    (8, Kind::Digits),
    (4, Kind::Emoji),
    (6, Kind::WordAndEmoji),
    (6, Kind::Accents),
    (4, Kind::Script("Cyrillic")),
    (3, Kind::Script("Greek")),
    (4, Kind::Script("Arabic")),
    (4, Kind::Script("Han")),
    (3, Kind::Script("Japanese")),
    (3, Kind::Script("Korean")),
    (1, Kind::Script("Hebrew")),
    (2, Kind::Script("Devanagari")),
    (1, Kind::Script("Thai")),
    (1, Kind::AnyScript),
    (2, Kind::Disallowed),
];

#[derive(Clone, Copy)]
enum Kind {
    Word,
    Capitals,
    Digits,
    Emoji,
    WordAndEmoji,
    Accents,
    Script(&'static str),
    AnyScript,
    Disallowed,
}

fn kind(rng: &mut Rng) -> Kind {
    let mut left = rng.below(100);
    for (part, kind) in KINDS {
        match left.checked_sub(part) {
            Some(rest) => left = rest,
            None => return kind,
        }
    }
    Kind::Word
}

/// What such names are made of.
pub struct Looks<'m> {
    made: &'m Made,
    /// Small Latin letters with marks, and what they are made of.
    accents: Vec<(u32, Vec<u32>)>,
}

impl<'m> Looks<'m> {
    pub fn new(made: &'m Made) -> Looks<'m> {
        let by_head = made.nf.by_head();
        let latin = made.spec.groups[0].characters.iter().filter(|c| (0xE0..0x180).contains(*c));
        let parted = latin.map(|&c| (c, maker::full_decomposition(&by_head, c)));
        Looks { made, accents: parted.filter(|(_, parts)| parts.len() > 1).collect() }
    }

    fn word(rng: &mut Rng, out: &mut Vec<u32>) {
        let from = out.len();
        out.extend((0..rng.between(3, 12)).map(|_| rng.code(0x61, 0x7A)));
        if rng.percent(15) {
            out.extend((0..rng.between(1, 3)).map(|_| rng.code(0x30, 0x39)));
        }
        if rng.percent(5) {
            out.insert(from + 2, 0x2D);
        }
    }

    fn emoji(&self, rng: &mut Rng, out: &mut Vec<u32>) {
        for _ in 0..rng.between(1, 3) {
            let with = rng.percent(50);
            out.extend(rng.pick(&self.made.spec.emoji).iter().filter(|&&c| with || c != plain::FE0F));
        }
    }

    /// Characters of the group that are its own: no ASCII.
    fn script(&self, rng: &mut Rng, group: usize, out: &mut Vec<u32>) {
        let characters = &self.made.spec.groups[group].characters;
        let own = &characters[characters.partition_point(|&c| c < 0x80)..];
        let from = out.len();
        let length = rng.between(2, 8);
        while out.len() < from + length && !own.is_empty() {
            let c = *rng.pick(own);
            // Marks first in a label are refused, and rare elsewhere.
            if !self.made.spec.cm.contains(&c) || (out.len() > from && rng.percent(20)) {
                out.push(c);
            }
        }
    }

    fn label(&self, rng: &mut Rng, out: &mut Vec<u32>) {
        match kind(rng) {
            Kind::Word => Self::word(rng, out),
            Kind::Capitals => {
                Self::word(rng, out);
                let from = out.len() - 3;
                out[from..].iter_mut().filter(|c| **c >= 0x61).for_each(|c| *c -= 0x20);
            }
            Kind::Digits => out.extend((0..rng.between(3, 6)).map(|_| rng.code(0x30, 0x39))),
            Kind::Emoji => self.emoji(rng, out),
            Kind::WordAndEmoji => {
                Self::word(rng, out);
                self.emoji(rng, out);
            }
            Kind::Accents => {
                Self::word(rng, out);
                let (whole, parts) = rng.pick(&self.accents);
                out.extend(if rng.percent(50) { std::slice::from_ref(whole) } else { &parts[..] });
            }
            Kind::Script(name) => match self.made.spec.groups.iter().position(|g| g.name == name) {
                Some(group) => self.script(rng, group, out),
                None => Self::word(rng, out),
            },
            Kind::AnyScript => {
                let group = rng.below(self.made.spec.groups.len());
                self.script(rng, group, out);
            }
            Kind::Disallowed => {
                Self::word(rng, out);
                out.push(*rng.pick(&[0x21, 0x20, 0x40, 0x200D, 0xFFFD]));
            }
        }
    }

    /// One or two labels before `eth`.
    pub fn name(&self, rng: &mut Rng) -> Vec<u32> {
        let mut out = Vec::new();
        for _ in 0..if rng.percent(85) { 1 } else { 2 } {
            self.label(rng, &mut out);
            out.push(plain::STOP);
        }
        out.extend([0x65, 0x74, 0x68]);
        out
    }
}

/// The names of the published validation tests where data/published has them,
/// else those of the stand-in: of "Names at the counter" and of the examples of
/// ENSIP-15. Says which.
pub fn validation_names() -> (&'static str, Vec<Vec<u32>>) {
    if let Ok(text) = std::fs::read_to_string(data().join("published/tests.json")) {
        return ("published", validation::names(&text).expect("tests.json"));
    }
    let cases = cases::counter().into_iter().chain(cases::examples());
    ("stand-in", cases.map(|case| case.name).collect())
}
