//! The items of a vector where there is no allocator: none, and room for none.

use core::marker::PhantomData;
use core::ops::{Deref, DerefMut};

/// No items.
#[derive(Clone, Debug)]
pub struct Items<T>(PhantomData<T>);

/// Room was refused.
pub struct NoRoom;

impl<T> Items<T> {
    pub fn new() -> Self {
        Items(PhantomData)
    }

    pub fn try_reserve(&mut self, more: usize) -> Result<(), NoRoom> {
        if more == 0 { Ok(()) } else { Err(NoRoom) }
    }

    pub fn try_reserve_exact(&mut self, more: usize) -> Result<(), NoRoom> {
        self.try_reserve(more)
    }

    // There is room before each of these is called, so none is called with an item to add.
    pub fn push(&mut self, _item: T) {}

    pub fn extend_from_slice(&mut self, _items: &[T]) {}

    pub fn resize(&mut self, _count: usize, _item: T) {}

    pub fn pop(&mut self) -> Option<T> {
        None
    }

    pub fn truncate(&mut self, _count: usize) {}

    pub fn clear(&mut self) {}
}

impl<T> Deref for Items<T> {
    type Target = [T];

    fn deref(&self) -> &[T] {
        &[]
    }
}

impl<T> DerefMut for Items<T> {
    fn deref_mut(&mut self) -> &mut [T] {
        &mut []
    }
}
