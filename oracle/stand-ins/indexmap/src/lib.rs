//! Stand-in for `indexmap`: a map that keeps the order in which its keys came in; keys are found by the standard library's hash,
//! as in the original. Left out: removal, lookup by position, other hashers, and all that the original does not call.
use std::collections::HashMap;
use std::hash::Hash;

#[derive(Debug, Clone)]
pub struct IndexMap<K, V> {
    entries: Vec<(K, V)>,
    positions: HashMap<K, usize>,
}

impl<K: Hash + Eq + Clone, V> IndexMap<K, V> {
    #[allow(clippy::new_without_default)]
    pub fn new() -> Self {
        Self { entries: vec![], positions: HashMap::new() }
    }

    #[allow(clippy::len_without_is_empty)]
    pub fn len(&self) -> usize {
        self.entries.len()
    }

    pub fn keys(&self) -> impl Iterator<Item = &K> {
        self.entries.iter().map(|(key, _)| key)
    }

    pub fn entry(&mut self, key: K) -> map::Entry<'_, K, V> {
        match self.positions.get(&key) {
            Some(&position) => map::Entry::Occupied(map::OccupiedEntry { value: &mut self.entries[position].1 }),
            None => map::Entry::Vacant(map::VacantEntry { map: self, key }),
        }
    }
}

impl<'a, K, V> IntoIterator for &'a IndexMap<K, V> {
    type Item = (&'a K, &'a V);
    type IntoIter = std::iter::Map<std::slice::Iter<'a, (K, V)>, fn(&'a (K, V)) -> (&'a K, &'a V)>;

    fn into_iter(self) -> Self::IntoIter {
        self.entries.iter().map(|(key, value)| (key, value))
    }
}

pub mod map {
    use super::*;

    pub enum Entry<'a, K, V> {
        Occupied(OccupiedEntry<'a, V>),
        Vacant(VacantEntry<'a, K, V>),
    }

    pub struct OccupiedEntry<'a, V> {
        pub(super) value: &'a mut V,
    }

    pub struct VacantEntry<'a, K, V> {
        pub(super) map: &'a mut IndexMap<K, V>,
        pub(super) key: K,
    }

    impl<'a, K: Hash + Eq + Clone, V> Entry<'a, K, V> {
        pub fn or_insert(self, value: V) -> &'a mut V {
            match self {
                Entry::Occupied(entry) => entry.value,
                Entry::Vacant(entry) => entry.insert(value),
            }
        }
    }

    impl<V> OccupiedEntry<'_, V> {
        pub fn get_mut(&mut self) -> &mut V {
            self.value
        }
    }

    impl<'a, K: Hash + Eq + Clone, V> VacantEntry<'a, K, V> {
        pub fn insert(self, value: V) -> &'a mut V {
            let position = self.map.entries.len();
            self.map.positions.insert(self.key.clone(), position);
            self.map.entries.push((self.key, value));
            &mut self.map.entries[position].1
        }
    }
}
