//! 01, "The rules of one label", with the refusals 5 to 14 and 16.

use crate::limits;
use crate::lookup::Lookup;
use crate::table::Whole;
use crate::text::{append_four_rounds, compose, full_length, nfd, order};
use crate::tokens::{strip, tokens, Token};
use answers::Kind;
use std::collections::BTreeSet;

/// A token as it goes into the answer.
#[derive(Clone, Debug, PartialEq, Eq)]
pub enum Finished {
    /// Stripped of FE0F; may be empty on an unsound table.
    Emoji(Vec<u32>),
    /// In NFC; never empty.
    Text(Vec<u32>),
}

impl Finished {
    pub fn codepoints(&self) -> &[u32] {
        match self {
            Finished::Emoji(c) | Finished::Text(c) => c,
        }
    }
}

/// An accepted label.
#[derive(Clone, Debug, PartialEq, Eq)]
pub struct LabelForm {
    /// The tokens put together in order.
    pub answer: Vec<u32>,
    pub kind: Kind,
    pub tokens: Vec<Finished>,
    /// Stripped emoji lengths and fully decomposed text lengths.
    pub worked: usize,
    /// Some text token became shorter by composing.
    pub composed: bool,
}

/// Why a label is refused.
#[derive(Clone, Copy, Debug, PartialEq, Eq)]
pub enum LabelFault {
    /// 5, with the index in the label.
    Disallowed(usize),
    /// 6 to 14 and 16.
    Number(u32),
}

/// Judges one label. `before` is what the worked length has reached before
/// this label, the stop between included.
pub fn judge(t: &impl Lookup, label: &[u32], before: usize) -> Result<LabelForm, LabelFault> {
    // 5 is looked for in the whole label before 6 and 7.
    let walked = tokens(t, label).map_err(LabelFault::Disallowed)?;
    if walked.is_empty() {
        return Err(LabelFault::Number(6));
    }
    let too_long = |worked: usize| before + worked > limits::WORKED;
    let mut worked = 0;
    let mut composed = false;
    let mut finished = Vec::new();
    for token in &walked {
        match token {
            Token::Emoji { record, .. } => {
                let emoji = strip(t.emoji(*record));
                worked += emoji.len();
                finished.push(Finished::Emoji(emoji));
            }
            Token::Text(text) => {
                let room = limits::WORKED.checked_sub(before + worked);
                let (nfc, length) = room.and_then(|most| normal(t, text, most)).ok_or(LabelFault::Number(7))?;
                worked += length;
                composed |= nfc.len() < length;
                finished.push(Finished::Text(nfc));
            }
        }
        if too_long(worked) {
            return Err(LabelFault::Number(7));
        }
    }
    let kind = kind_of(t, &finished).map_err(LabelFault::Number)?;
    let answer = joined(&finished);
    Ok(LabelForm { answer, kind, tokens: finished, worked, composed })
}

/// A text in NFC, and the length of its full decomposition; `None` where that is
/// over `most`.
fn normal(t: &impl Lookup, text: &[u32], most: usize) -> Option<(Vec<u32>, usize)> {
    if t.keeps(text) {
        return Some((text.to_vec(), full_length(t, text, most)?));
    }
    let mut decomposed = Vec::new();
    for &c in text {
        append_four_rounds(t, c, &mut decomposed);
        // The length only grows: past the limit the rest is not needed.
        if decomposed.len() > most {
            return None;
        }
    }
    order(t, &mut decomposed);
    Some((compose(t, &decomposed), decomposed.len()))
}

/// All tokens put together.
pub fn joined(tokens: &[Finished]) -> Vec<u32> {
    tokens.iter().flat_map(|token| token.codepoints()).copied().collect()
}

/// The text tokens put together.
pub fn joined_text(tokens: &[Finished]) -> Vec<u32> {
    let mut text = Vec::new();
    for token in tokens {
        if let Finished::Text(c) = token {
            text.extend(c);
        }
    }
    text
}

/// The kind of a label with these tokens, or a refusal from 8 to 14 or 16.
pub fn kind_of(t: &impl Lookup, tokens: &[Finished]) -> Result<Kind, u32> {
    if tokens.iter().all(|token| matches!(token, Finished::Emoji(_))) {
        return Ok(Kind::Emoji);
    }
    if let [Finished::Text(text)] = tokens {
        if text.iter().all(|&c| c < 0x80) {
            if low_line_after_other(text) {
                return Err(8);
            }
            if hyphens_third_and_fourth(text) {
                return Err(9);
            }
            return Ok(Kind::Ascii);
        }
    }
    let all = joined(tokens);
    if low_line_after_other(&all) {
        return Err(8);
    }
    if fenced_misplaced(t, &all) {
        return Err(10);
    }
    if tokens.iter().any(|token| starts_with_mark(t, token)) {
        return Err(11);
    }
    let text = joined_text(tokens);
    let Some(group) = first_group(t, &text) else {
        return Err(12);
    };
    let flags = t.group_flags(group);
    if flags & 2 == 0 && nsm_run_broken(t, &nfd(t, &text)) {
        return Err(13);
    }
    if flags & 4 != 0 && compounds(t, &text).iter().any(|compound| !t.group_lists(group, compound)) {
        return Err(16);
    }
    if confusable(t, &text) {
        return Err(14);
    }
    Ok(Kind::Group { number: group, restricted: flags & 1 != 0 })
}

/// 8: a low line after a character that isn't one.
pub fn low_line_after_other(all: &[u32]) -> bool {
    all.windows(2).any(|w| w[0] != 0x5F && w[1] == 0x5F)
}

/// 9: the third and fourth are both 2D.
pub fn hyphens_third_and_fourth(text: &[u32]) -> bool {
    text.len() >= 4 && text[2] == 0x2D && text[3] == 0x2D
}

/// 10: fenced first, last or side by side.
pub fn fenced_misplaced(t: &impl Lookup, all: &[u32]) -> bool {
    let fenced: Vec<bool> = all.iter().map(|&c| t.is_fenced(c)).collect();
    fenced.first() == Some(&true) || fenced.last() == Some(&true) || fenced.windows(2).any(|w| w[0] && w[1])
}

/// 11: a text token that starts with a mark.
pub fn starts_with_mark(t: &impl Lookup, token: &Finished) -> bool {
    match token {
        Finished::Text(text) => t.is_mark(text[0]),
        Finished::Emoji(_) => false,
    }
}

/// 12: the first group that holds every character.
pub fn first_group(t: &impl Lookup, text: &[u32]) -> Option<usize> {
    (0..t.group_count()).find(|&group| text.iter().all(|&c| t.group_holds(group, c)))
}

/// 13, on a text in NFD: a run of NSM in which two are equal or that is
/// longer than four.
pub fn nsm_run_broken(t: &impl Lookup, decomposed: &[u32]) -> bool {
    let mut run: Vec<u32> = Vec::new();
    for &c in decomposed {
        if !t.is_nsm(c) {
            run.clear();
        } else if run.contains(&c) || run.len() == limits::NSM_RUN {
            return true;
        } else {
            run.push(c);
        }
    }
    false
}

/// 16 asks for each of these in the group's list. 02, Item 12: "a character of the
/// composed text that is no mark and is followed by marks", "together with all
/// marks up to the next character that isn't one".
pub fn compounds<'a>(t: &impl Lookup, text: &'a [u32]) -> Vec<&'a [u32]> {
    let mut compounds = Vec::new();
    let mut rest = text;
    while let Some((&c, behind)) = rest.split_first() {
        let marks = behind.iter().take_while(|&&m| t.is_mark(m)).count();
        if marks > 0 && !t.is_mark(c) {
            compounds.push(&rest[..1 + marks]);
        }
        rest = &behind[marks..];
    }
    compounds
}

/// The extent of the confused character `c` in its whole. 02, Item 6:
/// "starting from the character, add every member that shares a group with one
/// already in, until nothing is added".
pub fn extent(t: &impl Lookup, whole: Whole, c: u32) -> BTreeSet<u32> {
    let mut inside = BTreeSet::from([c]);
    let mut added = vec![c];
    let mut asked = BTreeSet::new();
    while let Some(x) = added.pop() {
        for group in (0..t.group_count()).filter(|&group| t.group_holds(group, x)) {
            // What shares a group with x is added once for that group.
            if asked.insert(group) {
                added.extend(whole.members().filter(|&m| t.group_holds(group, m) && inside.insert(m)));
            }
        }
    }
    inside
}

/// 14: the text holds a confused character, and some group holds for each
/// confused character a member of its whole outside its extent, and also
/// every other character.
pub fn confusable<T: Lookup>(t: &T, text: &[u32]) -> bool {
    confusable_by(t, text, extent)
}

/// The same with another reading of the extent.
pub fn confusable_by<T: Lookup>(t: &T, text: &[u32], extent: impl Fn(&T, Whole, u32) -> BTreeSet<u32>) -> bool {
    let characters: BTreeSet<u32> = text.iter().copied().collect();
    // What may stand in the place of each character.
    let mut confused = false;
    let mut others = Vec::new();
    for c in characters {
        let Some(whole) = t.whole_of(c) else {
            others.push(vec![c]);
            continue;
        };
        let inside = extent(t, whole, c);
        others.push(whole.members().filter(|m| !inside.contains(m)).collect());
        confused = true;
    }
    confused && (0..t.group_count()).any(|group| others.iter().all(|of| of.iter().any(|&m| t.group_holds(group, m))))
}
