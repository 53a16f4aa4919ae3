//! 02, Item 1: the screen form of a name, "the beautified form of source
//! document 000: the same tokens, emoji with every FE0F of their sequence, and
//! 3BE in text shown as 39E in each label whose kind isn't the Greek group".

use crate::calls::{check_room_by_pass, judge_name_with, settle};
use crate::label::{Finished, LabelForm};
use crate::lookup::Lookup;
use crate::tokens::{tokens, Token};
use crate::{parse, soundness, STOP};
use answers::{Kind, Name, Refusal, Soundness};

/// The letter xi as names have it, and as a screen shows it.
pub const XI: u32 = 0x3BE;
pub const CAPITAL_XI: u32 = 0x39E;

/// "Which group is Greek is a number given with the call": whether a label of
/// this kind is Greek. Emoji and ASCII are not.
pub fn is_greek(kind: Kind, greek: u32) -> bool {
    matches!(kind, Kind::Group { number, .. } if number as u64 == u64::from(greek))
}

/// The screen form of an accepted label: its tokens once more, for the records
/// of the emoji, beside the tokens in NFC.
pub fn screen_label(t: &impl Lookup, greek: u32, label: &[u32], form: &LabelForm) -> Vec<u32> {
    let walked = tokens(t, label).expect("an accepted label");
    assert_eq!(walked.len(), form.tokens.len(), "the same tokens");
    let shown = |c: u32| if c == XI && !is_greek(form.kind, greek) { CAPITAL_XI } else { c };
    let mut screen = Vec::new();
    for token in walked.iter().zip(&form.tokens) {
        match token {
            (Token::Emoji { record, .. }, Finished::Emoji(_)) => screen.extend(t.emoji(*record)),
            (Token::Text(_), Finished::Text(text)) => screen.extend(text.iter().map(|&c| shown(c))),
            _ => panic!("the same tokens"),
        }
    }
    screen
}

/// The screen form over a table that is already read, and the number of labels;
/// or the first of 3 to 14, 16 and 17 that applies.
pub fn screen_by(t: &impl Lookup, greek: u32, setting: u32, name: &[u32]) -> Result<(Vec<u32>, usize), Refusal> {
    let forms = judge_name_with(t, setting, name)?;
    let labels: Vec<Vec<u32>> =
        name.split(|&c| c == STOP).zip(&forms).map(|(label, form)| screen_label(t, greek, label, form)).collect();
    Ok((labels.join(&STOP), forms.len()))
}

/// The call: "Refusals and their order are as for the name call, and 15 is
/// judged on the screen form."
pub fn screen(
    name: &[u32],
    table: &[u32],
    greek: u32,
    setting: u32,
    answer: &mut [u32],
    work: &mut [u32],
) -> Result<Name, Refusal> {
    let judged = check_room_by_pass(table, work, name).and_then(|t| screen_by(&t, greek, setting, name));
    settle(judged, answer, work).map(|(length, labels)| Name { length, labels })
}

/// What the wanted theorem asks of a table: "for a sound table that maps 39E to
/// 3BE alone, where 39E is not valid and stands in no emoji sequence".
#[derive(Clone, Copy, Debug, PartialEq, Eq)]
pub enum Hypothesis {
    Sound,
    /// The first record of 39E counts.
    MapsToXi,
    NotValid,
    InNoEmoji,
}

/// All of them.
pub const HYPOTHESES: [Hypothesis; 4] =
    [Hypothesis::Sound, Hypothesis::MapsToXi, Hypothesis::NotValid, Hypothesis::InNoEmoji];

/// The hypotheses that these words do not meet: none where the theorem speaks of
/// the table.
pub fn unmet(words: &[u32]) -> Vec<Hypothesis> {
    let Some(table) = parse(words) else {
        return HYPOTHESES.to_vec();
    };
    let meets = |hypothesis: &Hypothesis| match hypothesis {
        Hypothesis::Sound => soundness(words) == Soundness::Sound,
        Hypothesis::MapsToXi => table.mapping(CAPITAL_XI) == Some(&[XI]),
        Hypothesis::NotValid => !table.is_valid(CAPITAL_XI),
        Hypothesis::InNoEmoji => table.emoji.iter().all(|sequence| !sequence.contains(&CAPITAL_XI)),
    };
    HYPOTHESES.into_iter().filter(|hypothesis| !meets(hypothesis)).collect()
}

/// The theorem's claim for one name, `None` where it is refused: "normalising
/// the screen form with enough room gives the name's normal form", label for
/// label, and each label keeps its kind.
pub fn comes_back(t: &impl Lookup, greek: u32, setting: u32, name: &[u32]) -> Option<bool> {
    let labels = |name: &[u32]| -> Option<Vec<(Vec<u32>, Kind)>> {
        let forms = judge_name_with(t, setting, name).ok()?;
        Some(forms.into_iter().map(|form| (form.answer, form.kind)).collect())
    };
    let first = labels(name)?;
    let (shown, _) = screen_by(t, greek, setting, name).expect("an accepted name");
    Some(labels(&shown) == Some(first))
}

#[cfg(test)]
mod tests {
    use super::*;
    use crate::TableBuilder;

    /// Two groups that hold 3BE; records that are equal when they are stripped,
    /// an emoji with 3BE, and an empty one.
    #[test]
    fn small() {
        let group = |c: u32| (0, vec![(c, c), (XI, XI)]);
        let b = TableBuilder {
            valid: vec![(0x61, 0x61), (0x3B1, 0x3B1), (XI, XI)],
            mapped: vec![(CAPITAL_XI, vec![XI])],
            emoji: vec![vec![0x2764, 0xFE0F], vec![0x2764], vec![0x1F468, XI, 0xFE0F], vec![0xFE0F; 3]],
            groups: vec![group(0x61), group(0x3B1)],
            ..TableBuilder::default()
        };
        let words = b.to_words();
        let table = parse(&words).expect("a table");
        let screen = |greek: u32, name: &[u32]| screen_by(&table, greek, 0, name).map(|(form, _)| form);
        assert_eq!(screen(1, &[]), Ok(vec![]));
        assert_eq!(screen(1, &[0x61, XI, 0x2764]), Ok(vec![0x61, 0x39E, 0x2764, 0xFE0F]));
        assert_eq!(screen(0, &[0x61, CAPITAL_XI, 0x2764]), Ok(vec![0x61, XI, 0x2764, 0xFE0F]));
        assert_eq!(screen(1, &[0x3B1, XI, STOP, XI]), Ok(vec![0x3B1, XI, STOP, 0x39E]));
        assert_eq!(screen(0, &[0x3B1, XI, STOP, XI]), Ok(vec![0x3B1, 0x39E, STOP, XI]));
        for none in [2, u32::MAX] {
            assert_eq!(screen(none, &[0x3B1, XI, STOP, XI]), Ok(vec![0x3B1, 0x39E, STOP, 0x39E]));
        }
        assert_eq!(screen(1, &[0x1F468, XI, XI]), Ok(vec![0x1F468, XI, 0xFE0F, 0x39E]));
        assert_eq!(screen(1, &[0x61, 0xFE0F]), Ok(vec![0x61, 0xFE0F, 0xFE0F, 0xFE0F]));
        assert_eq!(screen(1, &[0x62]), Err(Refusal::new(5, 0)));
        assert_eq!(comes_back(&table, 1, 0, &[0x61, XI, 0x2764]), Some(true));
        assert_eq!(comes_back(&table, 1, 0, &[0x62]), None);
        assert_eq!(unmet(&words), [Hypothesis::Sound]);
    }
}
