//! A map that keeps the order in which its keys came.

use std::collections::BTreeMap;

#[derive(Clone, Debug)]
pub struct Ordered<K, V> {
    places: BTreeMap<K, usize>,
    pub entries: Vec<(K, V)>,
}

impl<K, V> Default for Ordered<K, V> {
    fn default() -> Ordered<K, V> {
        Ordered { places: BTreeMap::new(), entries: Vec::new() }
    }
}

impl<K: Ord + Clone, V: Default> Ordered<K, V> {
    /// Returns the value of a key, which comes last if it is new.
    pub fn value(&mut self, key: K) -> &mut V {
        let entries = &mut self.entries;
        let place = *self.places.entry(key).or_insert_with_key(|key| {
            entries.push((key.clone(), V::default()));
            entries.len() - 1
        });
        &mut entries[place].1
    }
}

impl<K: Ord, V> Ordered<K, V> {
    pub fn get(&self, key: &K) -> Option<&V> {
        self.places.get(key).map(|place| &self.entries[*place].1)
    }

    pub fn values(&self) -> impl Iterator<Item = &V> {
        self.entries.iter().map(|(_, value)| value)
    }

    pub fn keys(&self) -> impl Iterator<Item = &K> {
        self.entries.iter().map(|(key, _)| key)
    }
}
