// @generated from proved source. It is not edited.

#[cfg(feature = "alloc")]
use alloc::vec::Vec;
#[cfg(feature = "alloc")]
use crate::support::fallible::*;

use crate::formats::uefi_base::chars_lossy::{CharsLossy, write_characters};
#[cfg(feature = "alloc")]
use crate::formats::uefi_base::cstring16::CString16;
use crate::formats::uefi_base::little_endian::u16_at;
#[cfg(feature = "alloc")]
use crate::formats::uefi_base::text_error::UnalignedCStr16Error;
#[cfg(feature = "alloc")]
use crate::formats::uefi_base::ucs2::{fault_of, is_character};
use core::fmt;
use core::iter::{ExactSizeIterator, FusedIterator};

/// A slice of 16-bit units (UEFI 2.10, 2.3.1, `CHAR16`) in bytes, which may start at any address.
///
/// | offset | bytes | field |
/// |---|---|---|
/// | 2 i | 2 | unit i, little-endian |
///
/// The units may be any numbers. [`to_cstring16`](Self::to_cstring16) tests whether they are UCS-2
/// text, and [`chars_lossy`](Self::chars_lossy) reads any units as UTF-16. A view: it borrows the
/// bytes, and its iterators live as long as they do. Two slices are equal if their units are.
///
/// # Examples
///
/// ```
/// use uefi_formats::UnalignedSlice;
///
/// let units = UnalignedSlice::new(b"H\0i\0\0\0");
/// assert_eq!(units.get(1), Some(0x69));
/// assert!(units.iter().eq([0x48, 0x69, 0]));
/// ```
#[derive(Clone, Copy)]
pub struct UnalignedSlice<'a> {
    pub(crate) bytes: &'a [u8],
}

impl<'a> UnalignedSlice<'a> {
    /// Returns the units in all of `bytes`, whose length is even.
    ///
    /// # Panics
    ///
    /// If the bytes are odd in number.
    #[must_use]
    #[inline]
    pub fn new(bytes: &'a [u8]) -> UnalignedSlice<'a> {
        assert!(bytes.len() % 2 == 0);
        UnalignedSlice { bytes }
    }

    /// Returns the units in all of `bytes`, or `None` if the length is odd.
    #[must_use]
    #[inline]
    pub fn try_new(bytes: &'a [u8]) -> Option<UnalignedSlice<'a>> {
        if bytes.len() % 2 != 0 {
            return None;
        }
        Some(UnalignedSlice::new(bytes))
    }

    /// Returns the number of units.
    #[must_use]
    #[inline]
    pub fn len(&self) -> usize {
        self.bytes.len() / 2
    }

    /// Returns whether there are no units.
    #[must_use]
    #[inline]
    pub fn is_empty(&self) -> bool {
        self.bytes.is_empty()
    }

    /// Returns the unit at `index`, or `None` if there are at most `index` units.
    #[must_use]
    #[inline]
    pub fn get(&self, index: usize) -> Option<u16> {
        if index < self.len() {
            Some(self.unit(index))
        } else {
            None
        }
    }

    /// Returns the unit at an index that is known to be in bounds.
    #[inline]
    fn unit(&self, index: usize) -> u16 {
        u16_at(self.bytes, 2 * index)
    }

    /// Returns an iterator over the units, in order.
    #[must_use]
    #[inline]
    pub fn iter(&self) -> UnalignedSliceIter<'a> {
        UnalignedSliceIter::new(self.bytes)
    }

    /// Returns an iterator over the characters of the units in UTF-16, up to the first NUL or the
    /// end. A surrogate that isn't in a pair is U+FFFD.
    #[must_use]
    #[inline]
    pub fn chars_lossy(&self) -> CharsLossy<'a> {
        CharsLossy::new(self.iter())
    }

    /// Returns the text that consists of all the units, in an allocation of its own.
    ///
    /// # Errors
    ///
    /// Fails with the first of these errors that applies:
    ///
    /// - [`TooLong`](UnalignedCStr16Error::TooLong) if there are more than 2^31 units.
    /// - At the lowest index that holds either a surrogate or a zero that isn't the last unit:
    ///   [`InvalidChar`](UnalignedCStr16Error::InvalidChar) with that index if it holds a
    ///   surrogate, [`InteriorNul`](UnalignedCStr16Error::InteriorNul) with that index if it holds
    ///   a zero.
    /// - [`NotNulTerminated`](UnalignedCStr16Error::NotNulTerminated) if no unit is zero.
    /// - [`Memory`](UnalignedCStr16Error::Memory) if an allocation fails. Nothing is allocated
    ///   before the other errors are ruled out.
    #[cfg(feature = "alloc")]
    #[inline]
    pub fn to_cstring16(&self) -> Result<CString16, UnalignedCStr16Error> {
        if let Some(fault) = fault_of(self.len(), self.first_non_character()) {
            return Err(UnalignedCStr16Error::from(fault));
        }
        let units = self.iter().fallible_collect::<Vec<u16>>()?;
        Ok(CString16::from_vec_with_nul_unchecked(units))
    }

    /// Returns whether both slices have the same units.
    #[inline]
    fn has_units_of(&self, other: &UnalignedSlice<'_>) -> bool {
        if self.len() != other.len() {
            return false;
        }
        for i in 0..self.len() {
            if self.unit(i) != other.unit(i) {
                return false;
            }
        }
        true
    }

    /// Returns the first unit that isn't a character, with its index.
    #[cfg(feature = "alloc")]
    #[inline]
    fn first_non_character(&self) -> Option<(usize, u16)> {
        self.iter()
            .enumerate()
            .find(|(_, unit)| !is_character(*unit))
    }
}

/// Two slices are equal if all their units are.
impl PartialEq for UnalignedSlice<'_> {
    #[inline]
    fn eq(&self, other: &Self) -> bool {
        self.has_units_of(other)
    }
}

impl Eq for UnalignedSlice<'_> {}

/// Writes the characters of [`chars_lossy`](UnalignedSlice::chars_lossy), without an allocation.
impl fmt::Display for UnalignedSlice<'_> {
    fn fmt(&self, f: &mut fmt::Formatter<'_>) -> fmt::Result {
        write_characters(f, self.chars_lossy())
    }
}

/// An iterator over the units of an [`UnalignedSlice`], in order.
///
/// After the last unit it returns `None` forever. Its [`len`](ExactSizeIterator::len) and
/// [`size_hint`](Iterator::size_hint) are exact.
#[derive(Clone, Copy)]
pub struct UnalignedSliceIter<'a> {
    rest: &'a [u8],
}

impl core::fmt::Debug for UnalignedSliceIter<'_> {
    fn fmt(&self, f: &mut core::fmt::Formatter<'_>) -> core::fmt::Result {
        f.debug_struct("UnalignedSliceIter")
            .field("rest", &crate::support::debug::Bytes(self.rest))
            .finish()
    }
}

impl<'a> UnalignedSliceIter<'a> {
    /// Returns an iterator over the units in `rest`.
    #[inline]
    fn new(rest: &'a [u8]) -> UnalignedSliceIter<'a> {
        UnalignedSliceIter { rest }
    }
}

impl<'a> Iterator for UnalignedSliceIter<'a> {
    type Item = u16;

    #[inline]
    fn next(&mut self) -> Option<u16> {
        let (unit, rest) = self.rest.split_first_chunk::<2>()?;
        self.rest = rest;
        Some(u16::from_le_bytes(*unit))
    }

    /// Returns the number of units that are left, as both bounds.
    #[inline]
    fn size_hint(&self) -> (usize, Option<usize>) {
        let length = self.len();
        (length, Some(length))
    }
}

impl<'a> ExactSizeIterator for UnalignedSliceIter<'a> {
    /// Returns the number of units that are left.
    #[inline]
    fn len(&self) -> usize {
        self.rest.len() / 2
    }
}

impl<'a> FusedIterator for UnalignedSliceIter<'a> {}
