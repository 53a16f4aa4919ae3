//! Sets of numbers as sorted ranges that neither overlap nor touch.

#[derive(Clone, Debug, Default, PartialEq, Eq)]
pub struct Ranges(Vec<(u32, u32)>);

impl Ranges {
    /// The numbers in any of these pairs, which may overlap and repeat.
    pub fn new(pairs: impl IntoIterator<Item = (u32, u32)>) -> Ranges {
        let mut pairs: Vec<(u32, u32)> = pairs.into_iter().collect();
        pairs.sort_unstable();
        let mut merged: Vec<(u32, u32)> = Vec::new();
        for (first, last) in pairs {
            match merged.last_mut() {
                Some(before) if first <= before.1.saturating_add(1) => before.1 = before.1.max(last),
                _ => merged.push((first, last)),
            }
        }
        Ranges(merged)
    }
    pub fn holds(&self, c: u32) -> bool {
        let after = self.0.partition_point(|&(first, _)| first <= c);
        after > 0 && c <= self.0[after - 1].1
    }
    pub fn pairs(&self) -> &[(u32, u32)] {
        &self.0
    }
    /// Every number that both `self` and this range hold.
    pub fn within(&self, low: u32, high: u32) -> impl Iterator<Item = u32> + '_ {
        let pairs = self.0.iter().filter(move |&&(first, last)| first <= high && low <= last);
        pairs.flat_map(move |&(first, last)| first.max(low)..=last.min(high))
    }
    /// The least number that `self` holds and `other` does not.
    pub fn least_outside(&self, other: &Ranges) -> Option<u32> {
        for &(first, last) in &self.0 {
            let mut c = first;
            loop {
                let after = other.0.partition_point(|&(first, _)| first <= c);
                if after == 0 || other.0[after - 1].1 < c {
                    return Some(c);
                }
                let end = other.0[after - 1].1;
                if end >= last {
                    break;
                }
                c = end + 1;
            }
        }
        None
    }
}

/// For each number the value of the first triple that covers it.
#[derive(Clone, Debug, Default)]
pub struct FirstCovering(Vec<(u32, u32, u32)>);

impl FirstCovering {
    pub fn new(triples: impl IntoIterator<Item = (u32, u32, u32)>) -> FirstCovering {
        use std::collections::BTreeSet;
        let triples: Vec<(u32, u32, u32)> = triples.into_iter().collect();
        // Where triples begin and where they have just ended.
        let mut changes: Vec<(u64, bool, usize)> = Vec::new();
        for (i, &(first, last, _)) in triples.iter().enumerate() {
            changes.push((u64::from(first), true, i));
            changes.push((u64::from(last) + 1, false, i));
        }
        changes.sort_unstable();
        let mut open: BTreeSet<usize> = BTreeSet::new();
        let mut pieces = Vec::new();
        let mut from = 0u64;
        for (at, begins, i) in changes {
            if let (Some(&least), true) = (open.first(), at > from) {
                pieces.push((from as u32, (at - 1) as u32, triples[least].2));
            }
            from = at;
            if begins {
                open.insert(i);
            } else {
                open.remove(&i);
            }
        }
        FirstCovering(pieces)
    }
    pub fn find(&self, c: u32) -> Option<u32> {
        let after = self.0.partition_point(|&(first, _, _)| first <= c);
        let &(_, last, value) = self.0.get(after.checked_sub(1)?)?;
        (c <= last).then_some(value)
    }
}
