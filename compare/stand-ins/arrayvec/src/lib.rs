//! Stands in for the arrayvec crate: a list of at most CAP items, kept in place.

use std::ops::Deref;

/// A list of at most `CAP` items.
pub struct ArrayVec<T, const CAP: usize> {
    items: [T; CAP],
    len: usize,
}

/// Says that items did not fit.
#[derive(Debug)]
pub struct CapacityError;

impl<T: Copy + Default, const CAP: usize> ArrayVec<T, CAP> {
    /// Makes an empty list.
    pub fn new() -> Self {
        Self { items: [T::default(); CAP], len: 0 }
    }

    /// Appends all of `items`, or nothing where they do not fit.
    pub fn try_extend_from_slice(&mut self, items: &[T]) -> Result<(), CapacityError> {
        let end = self.len + items.len();
        self.items.get_mut(self.len..end).ok_or(CapacityError)?.copy_from_slice(items);
        self.len = end;
        Ok(())
    }
}

impl<T: Copy + Default, const CAP: usize> Default for ArrayVec<T, CAP> {
    fn default() -> Self {
        Self::new()
    }
}

impl<T, const CAP: usize> Deref for ArrayVec<T, CAP> {
    type Target = [T];
    fn deref(&self) -> &[T] {
        &self.items[..self.len]
    }
}
