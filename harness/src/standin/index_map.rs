//! A map that keeps the order in which its keys came.

use std::collections::HashMap;
use std::hash::Hash;
use std::ops::RangeFull;

#[derive(Clone, Debug)]
pub struct FastIndexMap<K, V> {
    entries: Vec<(K, V)>,
    places: HashMap<K, usize>,
}

impl<K, V> Default for FastIndexMap<K, V> {
    fn default() -> Self {
        FastIndexMap {
            entries: Vec::new(),
            places: HashMap::new(),
        }
    }
}

impl<K: Clone + Eq + Hash, V> FastIndexMap<K, V> {
    pub fn is_empty(&self) -> bool {
        self.entries.is_empty()
    }

    pub fn get(&self, key: &K) -> Option<&V> {
        self.places.get(key).map(|place| &self.entries[*place].1)
    }

    /// Puts a value at a key and gives back the one that was there.
    pub fn insert(&mut self, key: K, value: V) -> Option<V> {
        if let Some(place) = self.places.get(&key) {
            return Some(std::mem::replace(&mut self.entries[*place].1, value));
        }
        self.places.insert(key.clone(), self.entries.len());
        self.entries.push((key, value));
        None
    }

    /// Takes every entry out, in order.
    pub fn drain(&mut self, _all: RangeFull) -> std::vec::IntoIter<(K, V)> {
        self.places.clear();
        std::mem::take(&mut self.entries).into_iter()
    }

    pub fn values_mut(&mut self) -> impl Iterator<Item = &mut V> {
        self.entries.iter_mut().map(|(_, value)| value)
    }
}

impl<K, V> IntoIterator for FastIndexMap<K, V> {
    type Item = (K, V);
    type IntoIter = std::vec::IntoIter<(K, V)>;

    fn into_iter(self) -> Self::IntoIter {
        self.entries.into_iter()
    }
}

type Pair<'a, K, V> = fn(&'a (K, V)) -> (&'a K, &'a V);

impl<'a, K, V> IntoIterator for &'a FastIndexMap<K, V> {
    type Item = (&'a K, &'a V);
    type IntoIter = std::iter::Map<std::slice::Iter<'a, (K, V)>, Pair<'a, K, V>>;

    fn into_iter(self) -> Self::IntoIter {
        self.entries.iter().map(|(key, value)| (key, value))
    }
}
