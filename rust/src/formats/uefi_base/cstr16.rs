// @generated from proved source. It is not edited.

#[cfg(feature = "alloc")]
use alloc::string::String;
#[cfg(feature = "alloc")]
use crate::support::fallible::*;
use core::fmt::Write as _;

use crate::formats::uefi_base::text_error::FromSliceWithNulError;
use crate::formats::uefi_base::ucs2::{fault_of, is_character};
#[cfg(feature = "alloc")]
use crate::support::alloc::AllocError;
use core::fmt;

/// UCS-2 text that ends with a NUL (UEFI 2.10, 2.3.1, `CHAR16`): at most 2^31 units of 16 bits, of
/// which none is a surrogate and only the last is zero.
///
/// A view: it borrows the units that it was made from, and what it returns lives as long as they
/// do. Two texts are equal if their units are.
///
/// # Examples
///
/// ```
/// # #[cfg(feature = "alloc")] {
/// use uefi_formats::{CStr16, FromSliceWithNulError};
///
/// let text = CStr16::from_u16_with_nul(&[0x48, 0x69, 0]).unwrap();
/// assert_eq!(text.num_chars(), 2);
/// assert_eq!(text.to_string().as_deref(), Ok("Hi"));
///
/// let fault = CStr16::from_u16_with_nul(&[0x48, 0xd800, 0]).unwrap_err();
/// assert_eq!(fault, FromSliceWithNulError::InvalidChar(1));
/// # }
/// ```
#[derive(Clone, Copy)]
pub struct CStr16<'a> {
    units: &'a [u16],
}

impl<'a> CStr16<'a> {
    /// Returns the text that consists of all of `units`.
    ///
    /// # Errors
    ///
    /// Fails exactly if `units` aren't text, with the first of these errors that applies:
    ///
    /// - [`TooLong`](FromSliceWithNulError::TooLong) if there are more than 2^31 units.
    /// - At the lowest index that holds either a surrogate or a zero that isn't the last unit:
    ///   [`InvalidChar`](FromSliceWithNulError::InvalidChar) with that index if it holds a
    ///   surrogate, [`InteriorNul`](FromSliceWithNulError::InteriorNul) with that index if it holds
    ///   a zero.
    /// - [`NotNulTerminated`](FromSliceWithNulError::NotNulTerminated) if no unit is zero.
    #[inline]
    pub fn from_u16_with_nul(units: &'a [u16]) -> Result<CStr16<'a>, FromSliceWithNulError> {
        match fault_of(units.len(), first_non_character(units)) {
            Some(fault) => Err(fault),
            None => Ok(CStr16 { units }),
        }
    }

    /// Returns the text that consists of all of `units`, which are known to be text.
    #[cfg(feature = "alloc")]
    #[inline]
    pub(crate) fn from_u16_with_nul_unchecked(units: &'a [u16]) -> CStr16<'a> {
        CStr16 { units }
    }

    /// Returns all units, including the NUL.
    #[must_use]
    #[inline]
    pub fn as_u16_with_nul(&self) -> &'a [u16] {
        self.units
    }

    /// Returns the number of characters: one for each unit but the NUL.
    #[must_use]
    #[inline]
    pub fn num_chars(&self) -> usize {
        self.units.len() - 1
    }

    /// Returns whether there are no characters: whether the NUL is the only unit.
    #[must_use]
    #[inline]
    pub fn is_empty(&self) -> bool {
        self.num_chars() == 0
    }

    /// Returns whether the characters, without the NUL, are those of `text` before its first
    /// U+0000, or all of them if it has none.
    #[must_use]
    #[inline]
    pub fn eq_str_until_nul(&self, text: &str) -> bool {
        are_characters(&self.units[..self.num_chars()], text)
    }

    /// Returns the characters, without the NUL, in a `String`.
    ///
    /// # Errors
    ///
    /// [`AllocError`] if an allocation fails.
    #[cfg(feature = "alloc")]
    #[inline]
    pub fn to_string(&self) -> Result<String, AllocError> {
        let mut text = String::fallible_with_capacity(self.num_chars())?;
        for unit in &self.units[..self.num_chars()] {
            text.fallible_push(char::from_u32(u32::from(*unit)).unwrap())?;
        }
        Ok(text)
    }
}

/// Two texts are equal if all their units are.
impl PartialEq for CStr16<'_> {
    #[inline]
    fn eq(&self, other: &Self) -> bool {
        self.units == other.units
    }
}

impl Eq for CStr16<'_> {}

/// Writes the characters, without the NUL.
impl fmt::Display for CStr16<'_> {
    fn fmt(&self, f: &mut fmt::Formatter<'_>) -> fmt::Result {
        write_characters(f, &self.units[..self.num_chars()])
    }
}

/// Writes units that are characters.
#[inline]
fn write_characters(f: &mut fmt::Formatter<'_>, units: &[u16]) -> fmt::Result {
    for unit in units {
        f.write_char(char::from_u32(u32::from(*unit)).unwrap())?;
    }
    Ok(())
}

/// Returns whether the units are the characters of `text` before its first U+0000.
#[inline]
fn are_characters(units: &[u16], text: &str) -> bool {
    let mut index = 0;
    for character in text.chars() {
        if character == '\0' {
            return index == units.len();
        }
        if index == units.len() || u32::from(units[index]) != u32::from(character) {
            return false;
        }
        index += 1;
    }
    index == units.len()
}

/// Returns the first unit that isn't a character, with its index.
#[inline]
fn first_non_character(units: &[u16]) -> Option<(usize, u16)> {
    units
        .iter()
        .copied()
        .enumerate()
        .find(|(_, unit)| !is_character(*unit))
}
