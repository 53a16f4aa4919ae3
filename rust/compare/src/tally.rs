//! How often each number was met.

use std::collections::BTreeMap;
use std::fmt;

/// Counts by number, whatever the numbers are.
#[derive(Clone, Debug, Default, PartialEq, Eq)]
pub struct Tally(BTreeMap<u32, u64>);

impl Tally {
    pub fn add(&mut self, number: u32) {
        *self.0.entry(number).or_default() += 1;
    }

    pub fn of(&self, number: u32) -> u64 {
        self.0.get(&number).copied().unwrap_or(0)
    }
}

impl std::ops::AddAssign<&Tally> for Tally {
    fn add_assign(&mut self, other: &Tally) {
        for (number, count) in &other.0 {
            *self.0.entry(*number).or_default() += count;
        }
    }
}

/// As in ` 5:7 6:120`.
impl fmt::Display for Tally {
    fn fmt(&self, f: &mut fmt::Formatter) -> fmt::Result {
        self.0.iter().try_for_each(|(number, count)| write!(f, " {number}:{count}"))
    }
}
