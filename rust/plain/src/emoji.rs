//! 02, Item 8: which emoji it was.

use crate::lookup::Lookup;
use crate::FE0F;

/// A match at the start of a part of a label.
#[derive(Clone, Copy, Debug, PartialEq, Eq)]
pub struct Emoji {
    pub taken: usize,
    /// The number of the matching record, from 0.
    pub record: usize,
    /// The FE0F in what it took.
    pub selectors: usize,
}

/// The emoji sequence that matches the start of the part and takes most of it.
pub fn emoji(t: &impl Lookup, part: &[u32]) -> Option<Emoji> {
    let (record, taken) = t.find_emoji(part)?;
    let selectors = part[..taken].iter().filter(|&&c| c == FE0F).count();
    Some(Emoji { taken, record, selectors })
}
