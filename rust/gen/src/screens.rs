//! Tables and names that reach the screen form (02, Item 1).

use crate::names::Vocabulary;
use crate::rng::Rng;
use crate::small::{small_table, LATIN};
use crate::tables::{self, sound_table, Made};
use crate::unsound::{break_rule, LAST_RULE};
use plain::limits::{INPUT, SEQUENCE, WORKED};
use plain::screen::{unmet, Hypothesis, CAPITAL_XI, XI};
use plain::tokens::strip;
use plain::{TableBuilder, FE0F};

/// The small table with 3BE among Latin letters too, as the published table has
/// it. The wanted theorem speaks of it.
pub fn xi_table() -> TableBuilder {
    let mut b = small_table();
    b.groups[LATIN].1.push((XI, XI));
    b
}

/// 3BE in some groups, a mapping of 39E, and now and then emoji with one of them.
fn admit_xi(rng: &mut Rng, b: &mut TableBuilder) {
    let at = rng.below(b.groups.len());
    for (i, (_, pairs)) in b.groups.iter_mut().enumerate() {
        if i == at || rng.percent(70) {
            pairs.push((XI, XI));
        }
    }
    b.valid.push((XI, XI));
    let items = if rng.percent(90) { vec![XI] } else { vec![XI, XI] };
    let place = if rng.percent(80) { 0 } else { rng.below(b.mapped.len() + 1) };
    b.mapped.insert(place, (CAPITAL_XI, items));
    for (percent, c) in [(35, XI), (6, CAPITAL_XI)] {
        if rng.percent(percent) {
            b.emoji.push(vec![0x1F9E1, c, FE0F]);
        }
    }
}

/// A table that the wanted theorem speaks of.
pub fn suited_table(rng: &mut Rng) -> TableBuilder {
    loop {
        let mut b = sound_table(rng);
        admit_xi(rng, &mut b);
        if unmet(&b.to_words()).is_empty() {
            return b;
        }
    }
}

/// This sequence, stripped, with other FE0F.
fn styled(rng: &mut Rng, sequence: &[u32]) -> Vec<u32> {
    let mut other = strip(sequence);
    let most = SEQUENCE - other.len();
    let more = if rng.percent(25) { most } else { rng.between(1, 3).min(most) };
    for _ in 0..more {
        let at = rng.below(other.len() + 1);
        other.insert(at, FE0F);
    }
    if other.is_empty() {
        other.push(FE0F);
    }
    other
}

/// Emoji that only an unsound table has: two that are equal when they are
/// stripped, empty ones, and long rows of FE0F.
fn odd_emoji(rng: &mut Rng, b: &mut TableBuilder) {
    let sequence = match rng.below(3) {
        0 => vec![FE0F; rng.between(1, SEQUENCE)],
        _ if b.emoji.is_empty() => vec![0x1F9E1, FE0F],
        _ => {
            let like = rng.pick(&b.emoji).clone();
            styled(rng, &like)
        }
    };
    let at = rng.below(b.emoji.len() + 1);
    b.emoji.insert(at, sequence);
}

/// A table for the screen form, sound or not.
pub fn table(rng: &mut Rng) -> Made {
    let way = rng.below(10);
    if way < 3 {
        return tables::table(rng);
    }
    let mut builder = suited_table(rng);
    let mut what = vec!["3BE"];
    if way > 5 {
        what.push("odd emoji");
        for _ in 0..rng.between(1, 4) {
            odd_emoji(rng, &mut builder);
        }
    }
    if way > 8 {
        let rule = rng.code(1, LAST_RULE);
        what.push(break_rule(rng, &mut builder, rule));
    }
    Made { words: builder.to_words(), builder, what }
}

/// A name in which 3BE and 39E stand too.
pub fn name(rng: &mut Rng, vocabulary: &Vocabulary) -> Vec<u32> {
    let mut name = vocabulary.name(rng);
    if name.len() < 100 && rng.percent(50) {
        for _ in 0..rng.between(1, 3) {
            let at = rng.below(name.len() + 1);
            name.insert(at, *rng.pick(&[XI, XI, CAPITAL_XI]));
        }
    }
    name
}

/// A number of the Greek group: the first, the last, one beyond, the largest
/// number, or any other.
pub fn greek(rng: &mut Rng, groups: usize) -> u32 {
    let beyond = groups as u32;
    match rng.below(8) {
        0 | 1 => 0,
        2 => beyond.saturating_sub(1),
        3 => beyond,
        4 => u32::MAX,
        5 => 0x1_0000 * rng.code(0, 0xFFFF),
        _ => rng.code(0, beyond),
    }
}

/// A table that breaks this hypothesis of the wanted theorem alone, and a name
/// for which its claim fails; several of them.
pub fn witnesses() -> Vec<(Hypothesis, TableBuilder, Vec<u32>)> {
    use Hypothesis::{InNoEmoji, MapsToXi, NotValid, Sound};
    let changed = |hypothesis, name: &[u32], change: &dyn Fn(&mut TableBuilder)| {
        let mut b = xi_table();
        change(&mut b);
        (hypothesis, b, name.to_vec())
    };
    let of_xi = |b: &mut TableBuilder, items: &[u32]| {
        b.mapped.retain(|record| record.0 != CAPITAL_XI);
        b.mapped.push((CAPITAL_XI, items.to_vec()));
    };
    vec![
        // An item that is not valid.
        changed(Sound, &[0x2160], &|b| b.mapped.push((0x2160, vec![0x40]))),
        // A longer screen form than an input may be.
        changed(Sound, &[0x1F9E1; WORKED], &|b| b.emoji.push(rows(&[0x1F9E1]))),
        // The FE0F that is put back makes a longer emoji of two tokens.
        changed(Sound, &[0x1F9E1, 0x34F, 0x62], &|b| {
            b.emoji.extend([vec![0x1F9E1, FE0F], vec![0x1F9E1, FE0F, 0x62]]);
        }),
        changed(MapsToXi, &[XI, 0x62], &|b| b.mapped.retain(|record| record.0 != CAPITAL_XI)),
        changed(MapsToXi, &[XI, 0x62], &|b| of_xi(b, &[0x61])),
        changed(MapsToXi, &[XI, 0x62], &|b| of_xi(b, &[XI, XI])),
        // The first record counts.
        changed(MapsToXi, &[XI, 0x62], &|b| b.mapped.insert(0, (CAPITAL_XI, vec![0x61]))),
        changed(NotValid, &[XI, 0x62], &|b| {
            b.valid.push((CAPITAL_XI, CAPITAL_XI));
            b.groups[LATIN].1.push((CAPITAL_XI, CAPITAL_XI));
        }),
        changed(InNoEmoji, &[XI, 0x62], &|b| b.emoji.push(vec![CAPITAL_XI, 0x62])),
    ]
}

/// A sequence filled up with FE0F.
fn rows(sequence: &[u32]) -> Vec<u32> {
    let mut long = sequence.to_vec();
    long.resize(SEQUENCE, FE0F);
    long
}

/// Names, by one unsound table, whose screen forms are far longer than the
/// worked length, with the lengths of the screen forms.
pub fn long_screens() -> (TableBuilder, Vec<(Vec<u32>, usize)>) {
    let mut b = xi_table();
    b.ignored.push((0xAD, 0xAD));
    b.emoji.extend([rows(&[0x1F9E1]), rows(&[])]);
    let empty = |count: usize| [FE0F, 0xAD].repeat(count);
    let full = vec![0x1F9E1; WORKED];
    let names = vec![
        (empty(INPUT / 2), SEQUENCE * (INPUT / 2)),
        (full.clone(), SEQUENCE * WORKED),
        ([full, vec![0xAD], empty((INPUT - WORKED) / 2 - 1)].concat(), SEQUENCE * (WORKED + (INPUT - WORKED) / 2 - 1)),
        ([empty(100), vec![plain::STOP], empty(100), vec![0x61, XI]].concat(), 2 * 100 * SEQUENCE + 3),
    ];
    (b, names)
}
