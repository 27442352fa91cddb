//! Stand-in for the crate itertools: the two methods that sync.rs calls when it
//! joins shared heads. Both collect at once, which a finite list can't tell.
//! The joined heads therefore rest on these two bodies: each once, ascending.

use std::collections::HashSet;
use std::hash::Hash;
use std::vec::IntoIter;

pub trait Itertools: Iterator {
    /// Each element at its first occurrence.
    fn unique(self) -> IntoIter<Self::Item>
    where
        Self: Sized,
        Self::Item: Clone + Eq + Hash,
    {
        let mut seen = HashSet::new();
        let kept: Vec<_> = self.filter(|x| seen.insert(x.clone())).collect();
        kept.into_iter()
    }

    /// The elements in ascending order, repeats kept.
    fn sorted(self) -> IntoIter<Self::Item>
    where
        Self: Sized,
        Self::Item: Ord,
    {
        let mut all: Vec<_> = self.collect();
        all.sort();
        all.into_iter()
    }
}

impl<I: Iterator + ?Sized> Itertools for I {}

#[cfg(test)]
mod tests {
    use super::Itertools;

    #[test]
    fn unique_keeps_first_and_sorted_keeps_repeats() {
        let unique: Vec<_> = [3, 1, 3, 2, 1].into_iter().unique().collect();
        assert_eq!(unique, [3, 1, 2]);
        let sorted: Vec<_> = [3, 1, 3].into_iter().sorted().collect();
        assert_eq!(sorted, [1, 3, 3]);
    }
}
