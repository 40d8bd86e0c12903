//! Ordered maps and sets over Rust's own, whose growth is never refused: a process that has no memory for them ends.

use super::{AllocError, Allocator, Global};
use core::marker::PhantomData;

/// A map in the order of its keys.
#[derive(Debug)]
pub struct BTreeMap<K, V, A: Allocator = Global>(std::collections::BTreeMap<K, V>, PhantomData<A>);

impl<K: Ord, V, A: Allocator> BTreeMap<K, V, A> {
    pub fn new(_alloc: A) -> Self {
        BTreeMap(std::collections::BTreeMap::new(), PhantomData)
    }

    pub fn insert(&mut self, key: K, value: V) -> Result<Option<V>, AllocError> {
        Ok(self.0.insert(key, value))
    }

    pub fn get(&self, key: &K) -> Option<&V> {
        self.0.get(key)
    }
}

/// A set in order.
#[derive(Debug)]
pub struct BTreeSet<K, A: Allocator = Global>(std::collections::BTreeSet<K>, PhantomData<A>);

impl<K: Ord, A: Allocator> BTreeSet<K, A> {
    pub fn new(_alloc: A) -> Self {
        BTreeSet(std::collections::BTreeSet::new(), PhantomData)
    }

    pub fn insert(&mut self, key: K) -> Result<bool, AllocError> {
        Ok(self.0.insert(key))
    }
}
