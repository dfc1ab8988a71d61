// @generated from proved source. It is not edited.

#[cfg(feature = "alloc")]
use alloc::vec::Vec;
#[cfg(feature = "alloc")]
use crate::support::fallible::*;

#[cfg(feature = "alloc")]
use crate::formats::uefi_base::cstr16::CStr16;
#[cfg(feature = "alloc")]
use crate::formats::uefi_base::text_error::FromStrError;
#[cfg(feature = "alloc")]
use crate::formats::uefi_base::ucs2::{MAX_UNIT_CHARACTER, MAX_UNITS};
#[cfg(feature = "alloc")]
use crate::support::alloc::AllocError;
#[cfg(feature = "alloc")]
use core::fmt;

/// UCS-2 text that owns its units: the owned form of [`CStr16`]. Two texts are equal if their units
/// are; to compare one with a view, compare [`as_cstr16`](Self::as_cstr16).
#[cfg(feature = "alloc")]
pub struct CString16 {
    units: Vec<u16>,
}

#[cfg(feature = "alloc")]
impl CString16 {
    /// Returns the text with a unit for each character of `text`, and the NUL.
    ///
    /// # Errors
    ///
    /// Fails with the first of these errors that applies:
    ///
    /// - [`TooLong`](FromStrError::TooLong) if there are more than 2^31 - 1 characters.
    /// - At the first character that is either above U+FFFF or U+0000:
    ///   [`InvalidChar`](FromStrError::InvalidChar) if it is above U+FFFF,
    ///   [`InteriorNul`](FromStrError::InteriorNul) if it is U+0000.
    /// - [`Memory`](FromStrError::Memory) if an allocation fails. Nothing is allocated before the
    ///   other errors are ruled out.
    #[inline]
    pub fn from_str(text: &str) -> Result<CString16, FromStrError> {
        if let Some(fault) = fault_of(text) {
            return Err(fault);
        }
        let units = units_with_nul(text)?;
        Ok(CString16::from_vec_with_nul_unchecked(units))
    }

    /// Returns the text that consists of all of `units`, which are known to be text.
    #[inline]
    pub(crate) fn from_vec_with_nul_unchecked(units: Vec<u16>) -> CString16 {
        CString16 { units }
    }

    /// Returns a view of the units that this text owns.
    #[must_use]
    #[inline]
    pub fn as_cstr16(&self) -> CStr16<'_> {
        CStr16::from_u16_with_nul_unchecked(self.units.as_slice())
    }

    /// Returns all units, including the NUL.
    #[must_use]
    #[inline]
    pub fn as_u16_with_nul(&self) -> &[u16] {
        self.units.as_slice()
    }

    /// Returns whether the characters, without the NUL, are those of `text` before its first
    /// U+0000, or all of them if it has none.
    #[must_use]
    #[inline]
    pub fn eq_str_until_nul(&self, text: &str) -> bool {
        self.as_cstr16().eq_str_until_nul(text)
    }
}

#[cfg(feature = "alloc")]
impl CString16 {
    /// Returns a copy with the same units, in an allocation of its own.
    ///
    /// # Errors
    ///
    /// [`AllocError`] if an allocation fails.
    #[inline]
    pub fn fallible_clone(&self) -> Result<CString16, AllocError> {
        let copy = Vec::fallible_from_slice(self.units.as_slice())?;
        Ok(CString16::from_vec_with_nul_unchecked(copy))
    }
}

/// Two texts are equal if all their units are.
#[cfg(feature = "alloc")]
impl PartialEq for CString16 {
    #[inline]
    fn eq(&self, other: &Self) -> bool {
        self.as_cstr16() == other.as_cstr16()
    }
}

#[cfg(feature = "alloc")]
impl Eq for CString16 {}

/// Writes the characters, without the NUL.
#[cfg(feature = "alloc")]
impl fmt::Display for CString16 {
    fn fmt(&self, f: &mut fmt::Formatter<'_>) -> fmt::Result {
        let text = self.as_cstr16();
        write!(f, "{text}")
    }
}

/// Returns the error for characters that can't be made into text.
#[cfg(feature = "alloc")]
#[inline]
fn fault_of(text: &str) -> Option<FromStrError> {
    if char_count(text) >= MAX_UNITS {
        return Some(FromStrError::TooLong);
    }
    match first_without_unit(text) {
        None => None,
        Some('\0') => Some(FromStrError::InteriorNul),
        Some(_) => Some(FromStrError::InvalidChar),
    }
}

/// Returns the number of characters.
#[cfg(feature = "alloc")]
#[inline]
fn char_count(text: &str) -> usize {
    text.chars().count()
}

/// Returns the first character that has no unit of its own.
#[cfg(feature = "alloc")]
#[inline]
fn first_without_unit(text: &str) -> Option<char> {
    text.chars().find(|c| !has_unit(*c))
}

/// Returns whether the character has a unit of its own that isn't the NUL.
#[cfg(feature = "alloc")]
#[inline]
fn has_unit(c: char) -> bool {
    c != '\0' && c <= MAX_UNIT_CHARACTER
}

/// Returns a unit for each character, and the NUL.
#[cfg(feature = "alloc")]
#[inline]
fn units_with_nul(text: &str) -> Result<Vec<u16>, AllocError> {
    let mut units = Vec::fallible_with_capacity(char_count(text) + 1)?;
    for c in text.chars() {
        units.fallible_push(c as u16)?;
    }
    units.fallible_push(0)?;
    Ok(units)
}
