//! The search for 12 as a call: the first group that holds a text, and how
//! often it was asked whether a group holds a character (02, Item 3).

use crate::lookup::Lookup;
use crate::{limits, parse};
use answers::{Found, Refusal, Search};

/// The search over a table that is already read.
pub fn search(t: &impl Lookup, text: &[u32]) -> Search {
    let missing = |group: usize| text.iter().position(|&c| !t.group_holds(group, c));
    let first = (0..t.group_count()).find(|&group| missing(group).is_none());
    let seen = first.map_or(t.group_count(), |group| group + 1);
    Search {
        group: first.map(|number| Found {
            number,
            restricted: t.group_flags(number) & 1 != 0,
            whitelisted: t.group_flags(number) & 2 != 0,
        }),
        asked: (0..seen).map(|group| missing(group).map_or(text.len(), |place| place + 1)).sum(),
    }
}

/// The call: 1, then 3, then the search.
pub fn group(text: &[u32], words: &[u32]) -> Result<Search, Refusal> {
    let table = parse(words).ok_or(Refusal::new(1, 0))?;
    if text.len() > limits::INPUT {
        return Err(Refusal::new(3, 0));
    }
    Ok(search(&table, text))
}
