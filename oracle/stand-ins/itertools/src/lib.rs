//! Stand-in for `itertools`: the adaptors that the original calls, made at once where the real ones are lazy. All of their uses
//! are in code that the oracle does not run (programs, stacks, hashing).
use std::collections::HashSet;
use std::fmt::Display;
use std::hash::Hash;
use std::vec::IntoIter;

pub trait Itertools: Iterator + Sized {
    fn collect_vec(self) -> Vec<Self::Item> {
        self.collect()
    }

    fn join(self, separator: &str) -> String
    where
        Self::Item: Display,
    {
        self.map(|item| item.to_string()).collect_vec().join(separator)
    }

    /// Pairs only.
    fn tuple_windows(self) -> IntoIter<(Self::Item, Self::Item)>
    where
        Self::Item: Clone,
    {
        let all = self.collect_vec();
        let pairs = all.windows(2).map(|pair| (pair[0].clone(), pair[1].clone())).collect_vec();
        pairs.into_iter()
    }

    fn find_position(self, mut holds: impl FnMut(&Self::Item) -> bool) -> Option<(usize, Self::Item)> {
        self.enumerate().find(|(_, item)| holds(item))
    }

    fn unique(self) -> IntoIter<Self::Item>
    where
        Self::Item: Clone + Eq + Hash,
    {
        let mut seen = HashSet::new();
        self.filter(|item| seen.insert(item.clone())).collect_vec().into_iter()
    }

    fn sorted(self) -> IntoIter<Self::Item>
    where
        Self::Item: Ord,
    {
        let mut all = self.collect_vec();
        all.sort();
        all.into_iter()
    }

    fn zip_eq<J: IntoIterator>(self, other: J) -> IntoIter<(Self::Item, J::Item)> {
        let (left, right) = (self.collect_vec(), other.into_iter().collect_vec());
        assert_eq!(left.len(), right.len(), "zip_eq: lengths differ");
        left.into_iter().zip(right).collect_vec().into_iter()
    }

    fn dropping_back(mut self, n: usize) -> Self
    where
        Self: DoubleEndedIterator,
    {
        for _ in 0..n {
            self.next_back();
        }
        self
    }
}

impl<I: Iterator> Itertools for I {}
