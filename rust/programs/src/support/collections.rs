//! Maps and sets in the order of their keys: those of Rust have no insertion that fails.

use super::alloc::AllocError;
use super::fallible::*;

/// The most entries of a part.
const PART: usize = 256;

/// A map: parts of at most [`PART`] entries, none of them empty, all in the order of their keys.
#[derive(Clone, PartialEq, Eq, Debug)]
pub(crate) struct BTreeMap<K, V> {
    parts: Vec<Vec<(K, V)>>,
}

impl<K, V> BTreeMap<K, V> {
    /// Returns an empty map.
    pub(crate) fn new() -> BTreeMap<K, V> {
        BTreeMap { parts: Vec::new() }
    }

    /// Returns the entries in the order of their keys.
    pub(crate) fn iter(&self) -> impl Iterator<Item = (&K, &V)> {
        self.parts.iter().flatten().map(|(key, value)| (key, value))
    }

    /// Returns the values in the order of their keys.
    pub(crate) fn values(&self) -> impl Iterator<Item = &V> {
        self.iter().map(|(_, value)| value)
    }
}

impl<K: Ord, V> BTreeMap<K, V> {
    /// Returns the index of the part that a key is in, or would be, and its index there, or the one it would have.
    fn place(&self, key: &K) -> (usize, Result<usize, usize>) {
        let after = self.parts.partition_point(|part| part.first().is_some_and(|(first, _)| first <= key));
        let index = after.saturating_sub(1);
        let place = match self.parts.get(index) {
            Some(part) => part.binary_search_by(|(other, _)| other.cmp(key)),
            None => Err(0),
        };
        (index, place)
    }

    /// Returns the value of a key.
    pub(crate) fn get(&self, key: &K) -> Option<&V> {
        let (part, place) = self.place(key);
        Some(&self.parts.get(part)?.get(place.ok()?)?.1)
    }

    /// Inserts an entry, and returns the value that the key had.
    ///
    /// # Errors
    ///
    /// [`AllocError`] if an allocation fails. The map is as it was then.
    pub(crate) fn insert(&mut self, key: K, value: V) -> Result<Option<V>, AllocError> {
        match self.place(&key) {
            (part, Ok(index)) => Ok(Some(std::mem::replace(&mut self.parts[part][index].1, value))),
            (part, Err(index)) => {
                let (part, index) = self.make_room(part, index)?;
                self.parts[part].insert(index, (key, value));
                Ok(None)
            }
        }
    }

    /// Makes room for an entry at an index of a part, of which the upper half becomes a part of its own if it is full.
    /// Returns where the entry has its place then.
    fn make_room(&mut self, part: usize, index: usize) -> Result<(usize, usize), AllocError> {
        if self.parts.is_empty() {
            self.parts.fallible_push(Vec::new())?;
        }
        if self.parts[part].len() < PART {
            self.parts[part].try_reserve(1)?;
            return Ok((part, index));
        }
        self.parts.try_reserve(1)?;
        let mut upper = <Vec<(K, V)> as FallibleVec<_>>::fallible_with_capacity(PART)?;
        upper.extend(self.parts[part].drain(PART / 2..));
        self.parts.insert(part + 1, upper);
        Ok(if index <= PART / 2 { (part, index) } else { (part + 1, index - PART / 2) })
    }
}

/// A set: a map without values.
#[derive(Clone, PartialEq, Eq, Debug)]
pub(crate) struct BTreeSet<T>(BTreeMap<T, ()>);

impl<T: Ord> BTreeSet<T> {
    /// Returns an empty set.
    pub(crate) fn new() -> BTreeSet<T> {
        BTreeSet(BTreeMap::new())
    }

    /// Returns whether an item is in the set.
    pub(crate) fn contains(&self, item: T) -> bool {
        self.0.get(&item).is_some()
    }

    /// Inserts an item, and returns whether it wasn't in the set.
    ///
    /// # Errors
    ///
    /// [`AllocError`] if an allocation fails. The set is as it was then.
    pub(crate) fn insert(&mut self, item: T) -> Result<bool, AllocError> {
        Ok(self.0.insert(item, ())?.is_none())
    }
}

#[cfg(test)]
mod tests {
    //! Against the map of Rust, whose insertion ends the program if an allocation fails.

    use super::{BTreeMap, BTreeSet, PART};
    use std::collections;

    /// Returns numbers in an order that a seed decides, many of them more than once.
    fn numbers(count: u64, seed: u64) -> impl Iterator<Item = u64> {
        (0..count).map(move |it| it.wrapping_mul(0x9e37_79b9_7f4a_7c15).rotate_left(seed as u32) % (count - count / 4))
    }

    /// A map has the entries of Rust's, in the same order, however its keys come.
    #[test]
    fn a_map_has_the_entries_of_rusts() {
        let count = 40 * PART as u64;
        for order in [Vec::from_iter(0..count), Vec::from_iter((0..count).rev()), numbers(count, 7).collect(), numbers(count, 31).collect()] {
            let (mut mine, mut other) = (BTreeMap::new(), collections::BTreeMap::new());
            for (value, key) in order.into_iter().enumerate() {
                assert_eq!(mine.insert(key, value), Ok(other.insert(key, value)));
                assert_eq!(mine.get(&(key + 1)), other.get(&(key + 1)));
            }
            assert!(mine.iter().eq(other.iter()) && mine.values().eq(other.values()));
            assert!(mine.parts.iter().all(|part| !part.is_empty() && part.len() <= PART));
            assert!((0..count).all(|key| mine.get(&key) == other.get(&key)));
        }
    }

    /// A set has the items that were inserted.
    #[test]
    fn a_set_has_its_items() {
        let mut set = BTreeSet::new();
        assert_eq!([set.insert("b"), set.insert("a"), set.insert("b")], [Ok(true), Ok(true), Ok(false)]);
        assert!(set.contains("a") && set.contains("b") && !set.contains("c"));
    }
}
