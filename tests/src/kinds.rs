//! Counts of the kinds that generated files must reach.

use std::collections::BTreeMap;

/// How often each kind occurred.
#[derive(Debug)]
pub struct Kinds<K>(BTreeMap<K, usize>);

impl<K> Default for Kinds<K> {
    fn default() -> Self {
        Kinds(BTreeMap::new())
    }
}

impl<K: Ord> Kinds<K> {
    pub fn count(&mut self, kinds: impl IntoIterator<Item = K>) {
        for kind in kinds {
            *self.0.entry(kind).or_default() += 1;
        }
    }

    /// How often the rarest of `all` kinds occurred: never, if one is missing.
    pub fn rarest(&self, all: usize) -> usize {
        let least = self.0.values().copied().min();
        least.filter(|_| self.0.len() == all).unwrap_or(0)
    }
}

/// The kinds that are marked true.
pub fn of_these<K, const N: usize>(kinds: [(K, bool); N]) -> Vec<K> {
    let marked = kinds.into_iter().filter(|kind| kind.1);
    marked.map(|kind| kind.0).collect()
}
