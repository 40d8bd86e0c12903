//! A vector whose growth can be refused. Without the feature `alloc` each growth is.

use core::fmt;
use core::marker::PhantomData;
use core::ops::{Deref, DerefMut};

#[cfg(not(feature = "alloc"))]
use super::no_items::Items;
#[cfg(feature = "alloc")]
use alloc::vec::Vec as Items;

/// Memory was refused.
#[derive(Clone, Copy, Debug, PartialEq, Eq)]
pub struct AllocError;

impl fmt::Display for AllocError {
    fn fmt(&self, f: &mut fmt::Formatter<'_>) -> fmt::Result {
        f.write_str("Memory")
    }
}

impl core::error::Error for AllocError {}

/// Where the memory of a vector comes from.
pub trait Allocator {}

/// The global allocator, the only one of stable Rust.
#[derive(Clone, Copy, Debug, Default)]
pub struct Global;

impl Allocator for Global {}

/// A vector whose growth can be refused.
#[derive(Clone)]
pub struct Vec<T, A: Allocator = Global> {
    items: Items<T>,
    source: PhantomData<A>,
}

impl<T, A: Allocator> Vec<T, A> {
    pub fn new(_alloc: A) -> Self {
        Vec { items: Items::new(), source: PhantomData }
    }

    pub fn with_capacity(alloc: A, count: usize) -> Result<Self, AllocError> {
        let mut made = Vec::new(alloc);
        made.reserve_exact(count)?;
        Ok(made)
    }

    pub fn reserve_exact(&mut self, more: usize) -> Result<(), AllocError> {
        self.items.try_reserve_exact(more).map_err(|_| AllocError)
    }

    pub fn reserve(&mut self, more: usize) -> Result<(), AllocError> {
        self.items.try_reserve(more).map_err(|_| AllocError)
    }

    pub fn push(&mut self, item: T) -> Result<(), AllocError> {
        self.reserve(1)?;
        self.items.push(item);
        Ok(())
    }

    /// Moves the items of another vector to the end.
    #[cfg(feature = "alloc")]
    pub fn append(&mut self, other: &mut Self) -> Result<(), AllocError> {
        self.reserve(other.items.len())?;
        self.items.append(&mut other.items);
        Ok(())
    }

    pub fn pop(&mut self) -> Option<T> {
        self.items.pop()
    }

    pub fn truncate(&mut self, count: usize) {
        self.items.truncate(count);
    }

    pub fn clear(&mut self) {
        self.items.clear();
    }

    /// Sorts by an order. It takes memory without a refusal.
    #[cfg(feature = "alloc")]
    pub fn sort_by(&mut self, order: impl FnMut(&T, &T) -> core::cmp::Ordering) -> Result<(), AllocError> {
        self.items.sort_by(order);
        Ok(())
    }

    pub fn as_slice(&self) -> &[T] {
        &self.items
    }

    pub fn as_mut_slice(&mut self) -> &mut [T] {
        &mut self.items
    }

    /// The items, to change them by what Rust's own vector can.
    pub fn as_items_mut(&mut self) -> &mut Items<T> {
        &mut self.items
    }

    /// The items as a vector of Rust's own.
    #[cfg(feature = "alloc")]
    pub fn into_items(self) -> Items<T> {
        self.items
    }
}

impl<T: Clone, A: Allocator> Vec<T, A> {
    pub fn from_slice(alloc: A, items: &[T]) -> Result<Self, AllocError> {
        let mut made = Vec::new(alloc);
        made.extend_from_slice(items)?;
        Ok(made)
    }

    pub fn from_elem(alloc: A, item: T, count: usize) -> Result<Self, AllocError> {
        let mut made = Vec::with_capacity(alloc, count)?;
        made.items.resize(count, item);
        Ok(made)
    }

    pub fn extend_from_slice(&mut self, items: &[T]) -> Result<(), AllocError> {
        self.reserve(items.len())?;
        self.items.extend_from_slice(items);
        Ok(())
    }

    pub fn resize(&mut self, count: usize, item: T) -> Result<(), AllocError> {
        self.reserve(count.saturating_sub(self.items.len()))?;
        self.items.resize(count, item);
        Ok(())
    }
}

impl<T: fmt::Debug, A: Allocator> fmt::Debug for Vec<T, A> {
    fn fmt(&self, f: &mut fmt::Formatter<'_>) -> fmt::Result {
        f.debug_list().entries(self.iter()).finish()
    }
}

impl<T, A: Allocator> Deref for Vec<T, A> {
    type Target = [T];

    fn deref(&self) -> &[T] {
        &self.items
    }
}

impl<T, A: Allocator> DerefMut for Vec<T, A> {
    fn deref_mut(&mut self) -> &mut [T] {
        &mut self.items
    }
}

impl<'v, T, A: Allocator> IntoIterator for &'v Vec<T, A> {
    type Item = &'v T;
    type IntoIter = core::slice::Iter<'v, T>;

    fn into_iter(self) -> Self::IntoIter {
        self.items.iter()
    }
}

#[cfg(feature = "alloc")]
impl<T, A: Allocator> IntoIterator for Vec<T, A> {
    type Item = T;
    type IntoIter = alloc::vec::IntoIter<T>;

    fn into_iter(self) -> Self::IntoIter {
        self.items.into_iter()
    }
}
