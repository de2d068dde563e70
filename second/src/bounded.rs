//! A list of at most N items that lies where it is declared.

use std::ops::Deref;

#[derive(Clone, Copy)]
pub struct Bounded<T: Copy, const N: usize> {
    items: [T; N],
    count: usize,
}

impl<T: Copy, const N: usize> Bounded<T, N> {
    /// An empty list; `blank` fills the places not yet used.
    pub const fn new(blank: T) -> Self {
        Self { items: [blank; N], count: 0 }
    }

    /// Adds an item. The caller keeps to N.
    pub fn push(&mut self, item: T) {
        self.items[self.count] = item;
        self.count += 1;
    }

    pub fn last_mut(&mut self) -> Option<&mut T> {
        self.items[..self.count].last_mut()
    }
}

impl<T: Copy, const N: usize> Deref for Bounded<T, N> {
    type Target = [T];

    fn deref(&self) -> &[T] {
        &self.items[..self.count]
    }
}
