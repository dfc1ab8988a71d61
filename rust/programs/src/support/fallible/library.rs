// @generated: a copy of rust/src/support/fallible.rs. It is not edited.

//! The calls of vectors and texts that end a program whose memory runs out, with an error instead.

use super::alloc::AllocError;
use alloc::string::String;
use alloc::vec::Vec;

/// Calls of a vector.
pub(crate) trait FallibleVec<T>: Sized {
    /// Returns an empty vector with room for this many items.
    fn fallible_with_capacity(capacity: usize) -> Result<Self, AllocError>;

    /// Returns a vector of copies of the items.
    fn fallible_from_slice(items: &[T]) -> Result<Self, AllocError>
    where
        T: Copy;

    /// Returns a vector with this many copies of an item.
    fn fallible_from_elem(item: T, count: usize) -> Result<Self, AllocError>
    where
        T: Copy;

    /// Appends an item.
    fn fallible_push(&mut self, item: T) -> Result<(), AllocError>;

    /// Appends copies of the items.
    fn fallible_extend_from_slice(&mut self, items: &[T]) -> Result<(), AllocError>
    where
        T: Copy;

    /// Appends copies of an item until there are this many items, or drops the last ones.
    fn fallible_resize(&mut self, count: usize, item: T) -> Result<(), AllocError>
    where
        T: Copy;
}

impl<T> FallibleVec<T> for Vec<T> {
    #[inline]
    fn fallible_with_capacity(capacity: usize) -> Result<Vec<T>, AllocError> {
        let mut items = Vec::new();
        items.try_reserve_exact(capacity)?;
        Ok(items)
    }

    #[inline]
    fn fallible_from_slice(items: &[T]) -> Result<Vec<T>, AllocError>
    where
        T: Copy,
    {
        let mut all = Vec::fallible_with_capacity(items.len())?;
        all.extend_from_slice(items);
        Ok(all)
    }

    #[inline]
    fn fallible_from_elem(item: T, count: usize) -> Result<Vec<T>, AllocError>
    where
        T: Copy,
    {
        let mut all = Vec::fallible_with_capacity(count)?;
        all.resize(count, item);
        Ok(all)
    }

    #[inline]
    fn fallible_push(&mut self, item: T) -> Result<(), AllocError> {
        if self.len() == self.capacity() {
            self.try_reserve(1)?;
        }
        self.push(item);
        Ok(())
    }

    #[inline]
    fn fallible_extend_from_slice(&mut self, items: &[T]) -> Result<(), AllocError>
    where
        T: Copy,
    {
        self.try_reserve(items.len())?;
        self.extend_from_slice(items);
        Ok(())
    }

    #[inline]
    fn fallible_resize(&mut self, count: usize, item: T) -> Result<(), AllocError>
    where
        T: Copy,
    {
        self.try_reserve(count.saturating_sub(self.len()))?;
        self.resize(count, item);
        Ok(())
    }
}

/// Calls of a text.
pub(crate) trait FallibleString: Sized {
    /// Returns an empty text with room for this many bytes.
    fn fallible_with_capacity(capacity: usize) -> Result<Self, AllocError>;

    /// Returns a copy of the text.
    fn fallible_from_str(text: &str) -> Result<Self, AllocError>;

    /// Appends a character.
    fn fallible_push(&mut self, c: char) -> Result<(), AllocError>;

    /// Appends a text.
    fn fallible_push_str(&mut self, text: &str) -> Result<(), AllocError>;
}

impl FallibleString for String {
    #[inline]
    fn fallible_with_capacity(capacity: usize) -> Result<String, AllocError> {
        let mut text = String::new();
        text.try_reserve_exact(capacity)?;
        Ok(text)
    }

    #[inline]
    fn fallible_from_str(text: &str) -> Result<String, AllocError> {
        let mut all = <String as FallibleString>::fallible_with_capacity(text.len())?;
        all.push_str(text);
        Ok(all)
    }

    #[inline]
    fn fallible_push(&mut self, c: char) -> Result<(), AllocError> {
        self.try_reserve(c.len_utf8())?;
        self.push(c);
        Ok(())
    }

    #[inline]
    fn fallible_push_str(&mut self, text: &str) -> Result<(), AllocError> {
        self.try_reserve(text.len())?;
        self.push_str(text);
        Ok(())
    }
}

/// `collect` into a vector.
pub(crate) trait FallibleIterator: Iterator + Sized {
    /// Collects the items.
    #[inline]
    fn fallible_collect<C: FromFallible<Self::Item>>(self) -> Result<C, AllocError> {
        C::from_fallible(self)
    }
}

impl<I: Iterator> FallibleIterator for I {}

/// What items are collected into.
pub(crate) trait FromFallible<T>: Sized {
    /// Collects the items.
    fn from_fallible(items: impl Iterator<Item = T>) -> Result<Self, AllocError>;
}

impl<T> FromFallible<T> for Vec<T> {
    #[inline]
    fn from_fallible(items: impl Iterator<Item = T>) -> Result<Vec<T>, AllocError> {
        let mut all = Vec::fallible_with_capacity(items.size_hint().0)?;
        for item in items {
            all.fallible_push(item)?;
        }
        Ok(all)
    }
}
