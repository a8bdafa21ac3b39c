//! A map that remembers the order in which its keys came.

use std::collections::HashMap;
use std::hash::{DefaultHasher, Hash, Hasher};

pub trait Equivalent<K: ?Sized> {
    fn equivalent(&self, key: &K) -> bool;
}

impl<Q, K> Equivalent<K> for Q
where
    Q: ?Sized + Eq,
    K: ?Sized + std::borrow::Borrow<Q>,
{
    fn equivalent(&self, key: &K) -> bool {
        self == key.borrow()
    }
}

pub struct IndexMap<K, V> {
    entries: Vec<(K, V)>,
    places: HashMap<u64, Vec<usize>>,
}

fn hash_of(key: &(impl ?Sized + Hash)) -> u64 {
    let mut hasher = DefaultHasher::new();
    key.hash(&mut hasher);
    hasher.finish()
}

impl<K, V> Default for IndexMap<K, V> {
    fn default() -> Self {
        IndexMap {
            entries: Vec::new(),
            places: HashMap::new(),
        }
    }
}

impl<K, V> IndexMap<K, V> {
    pub fn new() -> Self {
        IndexMap::default()
    }

    pub fn keys(&self) -> map::Keys<'_, K, V> {
        map::Keys(self.entries.iter())
    }

    pub fn iter(&self) -> map::Iter<'_, K, V> {
        map::Iter(self.entries.iter())
    }

    pub fn contains_key<Q>(&self, key: &Q) -> bool
    where
        Q: ?Sized + Hash + Equivalent<K>,
    {
        self.place(key).is_some()
    }

    fn place<Q>(&self, key: &Q) -> Option<usize>
    where
        Q: ?Sized + Hash + Equivalent<K>,
    {
        let places = self.places.get(&hash_of(key))?;
        let mut places = places.iter().copied();
        places.find(|place| key.equivalent(&self.entries[*place].0))
    }
}

impl<K: Hash + Eq, V> IndexMap<K, V> {
    pub fn insert(&mut self, key: K, value: V) -> Option<V> {
        match self.place(&key) {
            Some(place) => Some(std::mem::replace(&mut self.entries[place].1, value)),
            None => {
                let places = self.places.entry(hash_of(&key)).or_default();
                places.push(self.entries.len());
                self.entries.push((key, value));
                None
            }
        }
    }

    pub fn entry(&mut self, key: K) -> map::Entry<'_, K, V> {
        match self.place(&key) {
            Some(place) => map::Entry::Occupied(map::OccupiedEntry(&mut self.entries[place].1)),
            None => map::Entry::Vacant(map::VacantEntry(self, key)),
        }
    }
}

pub mod map {
    use super::IndexMap;
    use std::hash::Hash;
    use std::slice;

    pub enum Entry<'a, K, V> {
        Occupied(OccupiedEntry<'a, V>),
        Vacant(VacantEntry<'a, K, V>),
    }

    pub struct OccupiedEntry<'a, V>(pub(super) &'a mut V);

    impl<V> OccupiedEntry<'_, V> {
        pub fn get_mut(&mut self) -> &mut V {
            self.0
        }
    }

    pub struct VacantEntry<'a, K, V>(pub(super) &'a mut IndexMap<K, V>, pub(super) K);

    impl<K: Hash + Eq, V> VacantEntry<'_, K, V> {
        pub fn insert(self, value: V) {
            self.0.insert(self.1, value);
        }
    }

    pub struct Keys<'a, K, V>(pub(super) slice::Iter<'a, (K, V)>);

    impl<'a, K, V> Iterator for Keys<'a, K, V> {
        type Item = &'a K;

        fn next(&mut self) -> Option<&'a K> {
            self.0.next().map(|(key, _)| key)
        }
    }

    pub struct Iter<'a, K, V>(pub(super) slice::Iter<'a, (K, V)>);

    impl<'a, K, V> Iterator for Iter<'a, K, V> {
        type Item = (&'a K, &'a V);

        fn next(&mut self) -> Option<(&'a K, &'a V)> {
            self.0.next().map(|(key, value)| (key, value))
        }
    }
}
