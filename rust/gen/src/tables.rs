//! Random tables: sound ones by construction, then broken in many ways.

use crate::damage::{damage_values, damaged_words};
use crate::draft::draft;
use crate::rng::Rng;
use crate::unsound::{break_rule, LAST_RULE};
use plain::{soundness, Soundness, TableBuilder};

/// A table and what was done to it.
#[derive(Clone, Debug)]
pub struct Made {
    pub words: Vec<u32>,
    /// What the words were made from, before any word was damaged.
    pub builder: TableBuilder,
    pub what: Vec<&'static str>,
}

/// A sound table.
pub fn sound_table(rng: &mut Rng) -> TableBuilder {
    loop {
        let b = draft(rng);
        if soundness(&b.to_words()) == Soundness::Sound {
            return b;
        }
    }
}

/// A table, sound or not.
pub fn table(rng: &mut Rng) -> Made {
    let mut builder = sound_table(rng);
    let mut what = Vec::new();
    match rng.below(100) {
        0..=37 => {}
        38..=44 => {
            let (how, words) = damaged_words(rng, &builder);
            return Made { words, builder, what: vec![how] };
        }
        45..=84 => {
            // The later rules have more ways to be hidden by a lower one.
            let rule = *rng.pick(&[1, 2, 3, 4, 4, 5, 5, 6, 6, 7, 7, 8, 8]);
            what.push(break_rule(rng, &mut builder, rule));
            while rng.percent(20) {
                let rule = rng.code(rule, LAST_RULE);
                what.push(break_rule(rng, &mut builder, rule));
            }
        }
        way => {
            if way > 92 {
                for _ in 0..rng.between(3, 8) {
                    let rule = rng.code(1, LAST_RULE);
                    what.push(break_rule(rng, &mut builder, rule));
                }
            }
            damage_values(rng, &mut builder);
            what.push("values");
        }
    }
    Made { words: builder.to_words(), builder, what }
}
