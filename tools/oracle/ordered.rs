//! A hashed map and a hashed set that are walked in ascending order, so that what the crate writes of
//! them is one text. build.sh puts them in the place of std's; what they answer else is what std's do.

use std::collections::{btree_map, btree_set, BTreeMap, BTreeSet};

/// What the crate asks of a key, and the order in which keys are walked.
pub trait Key: std::hash::Hash + Ord {}

impl<T: std::hash::Hash + Ord> Key for T {}

pub struct HashMap<K, V>(BTreeMap<K, V>);

impl<K, V> HashMap<K, V> {
    pub fn new() -> Self {
        HashMap(BTreeMap::new())
    }

    /// Asks for memory as std's does.
    pub fn with_capacity(count: usize) -> Self {
        drop(std::hint::black_box(std::collections::HashMap::<K, V>::with_capacity(count)));
        HashMap::new()
    }

    pub fn len(&self) -> usize {
        self.0.len()
    }

    pub fn insert(&mut self, key: K, value: V) -> Option<V>
    where
        K: Key,
    {
        self.0.insert(key, value)
    }
}

impl<'a, K, V> IntoIterator for &'a HashMap<K, V> {
    type Item = (&'a K, &'a V);
    type IntoIter = btree_map::Iter<'a, K, V>;

    fn into_iter(self) -> Self::IntoIter {
        self.0.iter()
    }
}

pub struct HashSet<T>(BTreeSet<T>);

impl<T> HashSet<T> {
    pub fn new() -> Self {
        HashSet(BTreeSet::new())
    }

    /// Asks for memory as std's does.
    pub fn with_capacity(count: usize) -> Self {
        drop(std::hint::black_box(std::collections::HashSet::<T>::with_capacity(count)));
        HashSet::new()
    }

    pub fn len(&self) -> usize {
        self.0.len()
    }

    pub fn insert(&mut self, item: T) -> bool
    where
        T: Key,
    {
        self.0.insert(item)
    }

    pub fn iter(&self) -> btree_set::Iter<'_, T> {
        self.0.iter()
    }
}
