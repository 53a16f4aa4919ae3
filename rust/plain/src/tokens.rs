//! 01, "Tokens".

use crate::lookup::Lookup;
use crate::FE0F;

#[derive(Clone, Debug, PartialEq, Eq)]
pub enum Token {
    /// The record that matched and how much of the input it took.
    Emoji { record: usize, taken: usize },
    /// Not empty. As the walk leaves it, before NFC.
    Text(Vec<u32>),
}

/// How much of `rest` this sequence takes, each FE0F of it being optional.
/// Nothing else of a sequence can match an FE0F, so taking each FE0F where the
/// input has one takes the most.
pub fn match_emoji(sequence: &[u32], rest: &[u32]) -> Option<usize> {
    let mut taken = 0;
    for &c in sequence {
        if rest.get(taken) == Some(&c) {
            taken += 1;
        } else if c != FE0F {
            return None;
        }
    }
    Some(taken)
}

/// A sequence without its FE0F.
pub fn strip(sequence: &[u32]) -> Vec<u32> {
    sequence.iter().copied().filter(|&c| c != FE0F).collect()
}

/// The tokens of one label, or the index in it of the first codepoint that is
/// disallowed.
pub fn tokens(t: &impl Lookup, label: &[u32]) -> Result<Vec<Token>, usize> {
    let mut tokens = Vec::new();
    let mut text = Vec::new();
    let mut at = 0;
    while at < label.len() {
        if let Some((record, taken)) = t.find_emoji(&label[at..]) {
            if !text.is_empty() {
                tokens.push(Token::Text(std::mem::take(&mut text)));
            }
            tokens.push(Token::Emoji { record, taken });
            at += taken;
            continue;
        }
        let c = label[at];
        if t.is_valid(c) {
            text.push(c);
        } else if let Some(items) = t.mapping(c) {
            text.extend(items);
        } else if !t.is_ignored(c) {
            return Err(at);
        }
        at += 1;
    }
    if !text.is_empty() {
        tokens.push(Token::Text(text));
    }
    Ok(tokens)
}
