//! A short list kept in place: an edge has so few bounds and items that they
//! need no memory of their own.

use std::fmt;
use std::ops::Deref;

/// At most `N` entries, read like a slice.
#[derive(Clone, Copy)]
pub struct List<T, const N: usize> {
    entries: [T; N],
    length: u8,
}

impl<T: Copy + Default, const N: usize> List<T, N> {
    /// The list without entries.
    pub fn new() -> Self {
        List {
            entries: [T::default(); N],
            length: 0,
        }
    }

    /// Puts an entry at the end. The list must hold fewer than `N`.
    pub fn push(&mut self, entry: T) {
        self.entries[usize::from(self.length)] = entry;
        self.length += 1;
    }

    /// Makes it a list of `count` entries, at most `N`, each of which may
    /// fail.
    #[inline]
    pub(super) fn fill<E>(
        &mut self,
        count: u8,
        mut next: impl FnMut() -> Result<T, E>,
    ) -> Result<(), E> {
        for entry in &mut self.entries[..usize::from(count)] {
            *entry = next()?;
        }
        self.length = count;
        Ok(())
    }
}

impl<T: Copy + Default, const N: usize> Default for List<T, N> {
    fn default() -> Self {
        List::new()
    }
}

impl<T, const N: usize> Deref for List<T, N> {
    type Target = [T];

    fn deref(&self) -> &[T] {
        &self.entries[..usize::from(self.length)]
    }
}

impl<T: PartialEq, const N: usize> PartialEq for List<T, N> {
    fn eq(&self, other: &Self) -> bool {
        **self == **other
    }
}

impl<T: Eq, const N: usize> Eq for List<T, N> {}

impl<T: fmt::Debug, const N: usize> fmt::Debug for List<T, N> {
    fn fmt(&self, out: &mut fmt::Formatter<'_>) -> fmt::Result {
        (**self).fmt(out)
    }
}

impl<T: Copy + Default, const N: usize> FromIterator<T> for List<T, N> {
    fn from_iter<I: IntoIterator<Item = T>>(entries: I) -> Self {
        let mut list = List::new();
        entries.into_iter().for_each(|entry| list.push(entry));
        list
    }
}
