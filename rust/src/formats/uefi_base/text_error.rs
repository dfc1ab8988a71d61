// @generated from proved source. It is not edited.

use crate::support::alloc::AllocError;
use core::error::Error;
use core::fmt;

/// The error for units that aren't UCS-2 text.
///
/// `TooLong` takes precedence over the others. Otherwise the lowest index that holds a surrogate or
/// a zero that isn't the last unit decides, and `NotNulTerminated` applies if there is none.
#[non_exhaustive]
#[derive(Clone, Copy, PartialEq, Eq, Debug)]
pub enum FromSliceWithNulError {
    /// There are more than 2^31 units.
    TooLong,
    /// The unit at this index is a surrogate, 0xd800 to 0xdfff, and all units before it are
    /// characters.
    InvalidChar(usize),
    /// The unit at this index is zero and not the last, and all units before it are characters.
    InteriorNul(usize),
    /// No unit is zero, and all units are characters, of which there may be none.
    NotNulTerminated,
}

/// Writes what the units lack, or what offends and at which index.
impl fmt::Display for FromSliceWithNulError {
    fn fmt(&self, f: &mut fmt::Formatter<'_>) -> fmt::Result {
        match self {
            FromSliceWithNulError::TooLong => f.write_str("more than 2^31 units"),
            FromSliceWithNulError::InvalidChar(index) => {
                write!(f, "a surrogate at index {index}")
            }
            FromSliceWithNulError::InteriorNul(index) => {
                write!(f, "a NUL at index {index}, before the end")
            }
            FromSliceWithNulError::NotNulTerminated => f.write_str("no NUL at the end"),
        }
    }
}

impl Error for FromSliceWithNulError {}

/// The error for characters that can't be made into UCS-2 text.
///
/// `TooLong` takes precedence over the others. Otherwise the first character that has no unit of
/// its own decides, and `Memory` is returned only if there is none.
#[non_exhaustive]
#[derive(Clone, Copy, PartialEq, Eq, Debug)]
pub enum FromStrError {
    /// There are more than 2^31 - 1 characters.
    TooLong,
    /// The first character that has no unit of its own is above U+FFFF.
    InvalidChar,
    /// The first character that has no unit of its own is U+0000, since zero is the NUL's unit.
    InteriorNul,
    /// An allocation failed.
    Memory,
}

/// Writes what offends.
impl fmt::Display for FromStrError {
    fn fmt(&self, f: &mut fmt::Formatter<'_>) -> fmt::Result {
        f.write_str(match self {
            FromStrError::TooLong => "more than 2^31 - 1 characters",
            FromStrError::InvalidChar => "a character above U+FFFF",
            FromStrError::InteriorNul => "the character U+0000",
            FromStrError::Memory => "out of memory",
        })
    }
}

impl Error for FromStrError {}

/// A failed allocation is [`FromStrError::Memory`].
impl From<AllocError> for FromStrError {
    #[inline]
    fn from(_error: AllocError) -> FromStrError {
        FromStrError::Memory
    }
}

/// The error for bytes whose units can't be copied into UCS-2 text: an error of
/// [`FromSliceWithNulError`], or `Memory`, which is returned only if the units are text.
#[non_exhaustive]
#[derive(Clone, Copy, PartialEq, Eq, Debug)]
pub enum UnalignedCStr16Error {
    /// There are more than 2^31 units.
    TooLong,
    /// The unit at this index is a surrogate, 0xd800 to 0xdfff, and all units before it are
    /// characters.
    InvalidChar(usize),
    /// The unit at this index is zero and not the last, and all units before it are characters.
    InteriorNul(usize),
    /// No unit is zero, and all units are characters, of which there may be none.
    NotNulTerminated,
    /// An allocation failed.
    Memory,
}

impl UnalignedCStr16Error {
    /// Returns the error of the units, or `None` if an allocation failed.
    #[inline]
    fn of_units(self) -> Option<FromSliceWithNulError> {
        match self {
            UnalignedCStr16Error::TooLong => Some(FromSliceWithNulError::TooLong),
            UnalignedCStr16Error::InvalidChar(i) => Some(FromSliceWithNulError::InvalidChar(i)),
            UnalignedCStr16Error::InteriorNul(i) => Some(FromSliceWithNulError::InteriorNul(i)),
            UnalignedCStr16Error::NotNulTerminated => Some(FromSliceWithNulError::NotNulTerminated),
            UnalignedCStr16Error::Memory => None,
        }
    }
}

/// Writes what [`FromSliceWithNulError`] writes, or `out of memory`.
impl fmt::Display for UnalignedCStr16Error {
    fn fmt(&self, f: &mut fmt::Formatter<'_>) -> fmt::Result {
        match self.of_units() {
            Some(fault) => write!(f, "{fault}"),
            None => f.write_str("out of memory"),
        }
    }
}

impl Error for UnalignedCStr16Error {}

/// Converts each error to the variant with the same name.
impl From<FromSliceWithNulError> for UnalignedCStr16Error {
    #[inline]
    fn from(fault: FromSliceWithNulError) -> UnalignedCStr16Error {
        match fault {
            FromSliceWithNulError::TooLong => UnalignedCStr16Error::TooLong,
            FromSliceWithNulError::InvalidChar(index) => UnalignedCStr16Error::InvalidChar(index),
            FromSliceWithNulError::InteriorNul(index) => UnalignedCStr16Error::InteriorNul(index),
            FromSliceWithNulError::NotNulTerminated => UnalignedCStr16Error::NotNulTerminated,
        }
    }
}

/// A failed allocation is [`UnalignedCStr16Error::Memory`].
impl From<AllocError> for UnalignedCStr16Error {
    #[inline]
    fn from(_error: AllocError) -> UnalignedCStr16Error {
        UnalignedCStr16Error::Memory
    }
}

/// The error for a text that isn't that of a GUID.
///
/// `InvalidLength` takes precedence over the others. Otherwise the first byte that doesn't fit
/// decides: one at 8, 13, 18 or 23 that isn't `-`, or another that isn't a hex digit.
#[non_exhaustive]
#[derive(Clone, Copy, PartialEq, Eq, Debug)]
pub enum GuidFromStrError {
    /// The text doesn't have 36 bytes.
    InvalidLength,
    /// The byte at this index, which is 8, 13, 18 or 23, isn't `-`, and all bytes before it fit.
    InvalidSeparator(usize),
    /// The byte at this index, which is another one, isn't a hex digit, and all bytes before it
    /// fit.
    InvalidHex(usize),
}

/// Writes what the text lacks, or what is wrong at which index.
impl fmt::Display for GuidFromStrError {
    fn fmt(&self, f: &mut fmt::Formatter<'_>) -> fmt::Result {
        match self {
            GuidFromStrError::InvalidLength => f.write_str("not 36 bytes"),
            GuidFromStrError::InvalidSeparator(index) => write!(f, "no dash at index {index}"),
            GuidFromStrError::InvalidHex(index) => write!(f, "no hex digit at index {index}"),
        }
    }
}

impl Error for GuidFromStrError {}
