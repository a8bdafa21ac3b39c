// Stand-in: a hash set without iteration.

use std::borrow::Borrow;
use std::collections::HashSet;
use std::hash::Hash;

pub(crate) struct UnorderedSet<T>(HashSet<T>);

impl<T: Hash + Eq> UnorderedSet<T> {
    pub(crate) fn new() -> Self {
        UnorderedSet(HashSet::new())
    }

    pub(crate) fn insert(&mut self, value: T) -> bool {
        self.0.insert(value)
    }

    pub(crate) fn contains<Q>(&self, value: &Q) -> bool
    where
        T: Borrow<Q>,
        Q: ?Sized + Hash + Eq,
    {
        self.0.contains(value)
    }

    pub(crate) fn retain(&mut self, keep: impl FnMut(&T) -> bool) {
        self.0.retain(keep);
    }
}
