//! How many texts were compared.

use std::collections::HashSet;
use std::fmt::{self, Display, Formatter};
use std::sync::Mutex;

/// How a text was read by both readers.
#[derive(Clone, Copy, PartialEq, Eq)]
pub enum Outcome {
    Right,
    Wrong,
    /// With different errors at the same offset.
    WrongOtherwise,
}

#[derive(Clone, Copy, Default)]
pub struct Counts {
    right: u64,
    wrong: u64,
    distinct_right: u64,
    distinct_wrong: u64,
    pub other_errors: u64,
}

impl Counts {
    pub fn add(&mut self, outcome: Outcome, is_new: bool) {
        let (all, distinct) = match outcome {
            Outcome::Right => (&mut self.right, &mut self.distinct_right),
            _ => (&mut self.wrong, &mut self.distinct_wrong),
        };
        *all += 1;
        *distinct += u64::from(is_new);
        self.other_errors += u64::from(outcome == Outcome::WrongOtherwise);
    }

    pub fn plus(self, other: Counts) -> Counts {
        Counts {
            right: self.right + other.right,
            wrong: self.wrong + other.wrong,
            distinct_right: self.distinct_right + other.distinct_right,
            distinct_wrong: self.distinct_wrong + other.distinct_wrong,
            other_errors: self.other_errors + other.other_errors,
        }
    }
}

impl Display for Counts {
    fn fmt(&self, f: &mut Formatter<'_>) -> fmt::Result {
        let Counts { right, wrong, distinct_right, distinct_wrong, .. } = self;
        write!(f, "{:>9} made: {right:>9} right, {wrong:>9} wrong; ", right + wrong)?;
        let distinct = distinct_right + distinct_wrong;
        write!(f, "{distinct:>9} distinct: {distinct_right:>9} right, {distinct_wrong:>9} wrong")
    }
}

/// The texts so far, by their hashes.
#[derive(Default)]
pub struct Distinct([Mutex<HashSet<u64>>; 32]);

impl Distinct {
    /// Adds a text. Returns whether it wasn't there.
    pub fn is_new(&self, hash: u64) -> bool {
        self.0[hash as usize % self.0.len()].lock().expect("a lock").insert(hash)
    }
}
