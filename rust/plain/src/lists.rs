//! The two lists of the second document's Item 14, written from it alone: the
//! slots of a book that a new table would file differently, and the groups in
//! which a label could be respelled.

use crate::book::{damaged, filed, slot, AREA, FORM, SLOTS};
use crate::calls::{check_room, join_labels, judge_label, judge_name};
use crate::label::{extent, joined_text, Finished};
use crate::lookup::Lookup;
use crate::text::nfc;
use crate::tokens::{strip, tokens, Token};
use answers::Refusal;
use std::collections::BTreeSet;

fn refuse<T>(number: u32) -> Result<T, Refusal> {
    Err(Refusal::new(number, 0))
}

/// The end of both calls: 33 if the list has no room, else the entries and then
/// zeros; zeros alone after a refusal. The work area is zeros.
fn listed(entries: Result<Vec<Vec<u32>>, Refusal>, list: &mut [u32], work: &mut [u32]) -> Result<usize, Refusal> {
    list.fill(0);
    work.fill(0);
    let entries = entries?;
    let words = entries.concat();
    if words.len() > list.len() {
        return refuse(33);
    }
    list[..words.len()].copy_from_slice(&words);
    Ok(entries.len())
}

/// "the refusal (0 if filed otherwise, 42 or 43 if that form is empty or too
/// long for a slot)", or nothing where the name is filed as it is.
pub fn change(t: &impl Lookup, name: &[u32]) -> Option<u32> {
    match judge_name(t, name) {
        Err(refusal) => Some(refusal.number),
        Ok(labels) => match join_labels(&labels) {
            form if form.is_empty() => Some(42),
            form if form.len() > FORM => Some(43),
            form => (form != name).then_some(0),
        },
    }
}

/// "list the slots whose name the new table refuses or files otherwise, two
/// words each, the slot (from 0) and the refusal"
pub fn moved(area: &[u32], table: &[u32], list: &mut [u32], work: &mut [u32]) -> Result<usize, Refusal> {
    let entries = if area.len() != AREA {
        refuse(40)
    } else if damaged(area) {
        refuse(41)
    } else {
        check_room(table, work).map(|t| {
            let number = |i| change(&t, filed(slot(area, i))?);
            (0..SLOTS).filter_map(|i| Some(vec![i as u32, number(i)?])).collect()
        })
    };
    listed(entries, list, work)
}

/// The text of a label as the look-alike test sees it, `None` for one of emoji
/// alone or in ASCII.
pub fn tested(t: &impl Lookup, label: &[u32]) -> Option<Vec<u32>> {
    let finished: Vec<Finished> = tokens(t, label)
        .ok()?
        .into_iter()
        .map(|token| match token {
            Token::Emoji { record, .. } => Finished::Emoji(strip(t.emoji(record))),
            Token::Text(text) => Finished::Text(nfc(t, &text)),
        })
        .collect();
    match finished.as_slice() {
        emoji if emoji.iter().all(|token| matches!(token, Finished::Emoji(_))) => None,
        [Finished::Text(text)] if text.iter().all(|&c| c < 0x80) => None,
        mixed => Some(joined_text(mixed)),
    }
}

/// "every group in which it could be respelled, ascending, each once; without a
/// confused character .. there is none"
pub fn respellings(t: &impl Lookup, text: &[u32]) -> Vec<usize> {
    let characters: BTreeSet<u32> = text.iter().copied().collect();
    if characters.iter().all(|&c| t.whole_of(c).is_none()) {
        return Vec::new();
    }
    // For each character, what a group must hold one of.
    let wanted: Vec<Vec<u32>> = characters
        .iter()
        .map(|&c| match t.whole_of(c) {
            None => vec![c],
            Some(whole) => {
                let inside = extent(t, whole, c);
                whole.members().filter(|m| !inside.contains(m)).collect()
            }
        })
        .collect();
    let spells = |&group: &usize| wanted.iter().all(|of| of.iter().any(|&m| t.group_holds(group, m)));
    (0..t.group_count()).filter(spells).collect()
}

/// "Refusals there: the label call's before 14, then 33."
pub fn respelled(label: &[u32], table: &[u32], list: &mut [u32], work: &mut [u32]) -> Result<usize, Refusal> {
    let entries = check_room(table, work).and_then(|t| match judge_label(&t, label) {
        Err(refusal) if refusal.number != 14 => Err(refusal),
        _ => {
            let text = tested(&t, label).unwrap_or_default();
            Ok(respellings(&t, &text).into_iter().map(|group| vec![group as u32]).collect())
        }
    });
    listed(entries, list, work)
}
