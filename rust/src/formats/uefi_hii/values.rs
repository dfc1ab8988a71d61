// @generated from proved source. It is not edited.

#[cfg(feature = "alloc")]
use alloc::string::String;
#[cfg(feature = "alloc")]
use crate::support::fallible::*;

#[cfg(feature = "alloc")]
use crate::formats::uefi_hii::configuration::ConfigurationString;
#[cfg(feature = "alloc")]
use crate::formats::uefi_hii::filling::hex_bytes;
#[cfg(feature = "alloc")]
use crate::formats::uefi_hii::filling::fill_from_hex;
#[cfg(feature = "alloc")]
use crate::formats::uefi_hii::hex::HexBytes;
#[cfg(feature = "alloc")]
use crate::support::alloc::AllocError;
#[cfg(feature = "alloc")]
use crate::formats::uefi_base::Guid;

/// The bytes of a GUID.
#[cfg(feature = "alloc")]
const GUID_LENGTH: usize = 16;

#[cfg(feature = "alloc")]
impl ConfigurationString {
    /// Returns the bytes that a value spells in hex, from either end. No text is refused: what is
    /// no digit stands for 0, as [`HexBytes`] says.
    #[must_use]
    #[inline]
    pub fn parse_bytes_from_hex(text: &str) -> HexBytes<'_> {
        HexBytes::new(text)
    }

    /// Returns the number that a value spells in hex, the highest byte first. `None` where it
    /// spells another count of bytes than 1, 2, 4 or 8.
    #[must_use]
    #[inline]
    pub fn parse_number_from_hex(text: &str) -> Option<u64> {
        let bytes = HexBytes::new(text);
        if !matches!(bytes.len(), 1 | 2 | 4 | 8) {
            return None;
        }
        let mut number: u64 = 0;
        for byte in bytes {
            number = number * 256 + byte as u64;
        }
        Some(number)
    }

    /// Returns the GUID whose bytes a value spells in hex. `None` where it spells another count of
    /// bytes than 16.
    #[must_use]
    #[inline]
    pub fn parse_guid_from_hex(text: &str) -> Option<Guid> {
        if HexBytes::new(text).len() != GUID_LENGTH {
            return None;
        }
        let mut guid = [0; GUID_LENGTH];
        fill_from_hex(text, &mut guid);
        Some(Guid(guid))
    }
}

#[cfg(feature = "alloc")]
impl ConfigurationString {
    /// Returns the name that a value spells in hex: the text of its UCS-2 units, each of two bytes,
    /// the high byte first. An odd last byte has to be 0, and is the first half of a NUL that was
    /// cut.
    ///
    /// `None` where the value has an odd number of characters, where an odd last byte isn't 0, and
    /// where a unit is zero or a surrogate.
    ///
    /// # Errors
    ///
    /// [`AllocError`] if an allocation fails, which may also come before a value that is no name is
    /// found to be none.
    #[inline]
    pub fn parse_string_from_hex(text: &str) -> Result<Option<String>, AllocError> {
        if text.len() % 2 != 0 {
            return Ok(None);
        }
        let spelled = hex_bytes(text)?;
        let mut name = String::new();
        let mut bytes = spelled.iter();
        while let Some(high) = bytes.next() {
            let Some(low) = bytes.next() else {
                return Ok(if *high == 0 { Some(name) } else { None });
            };
            let Some(c) = character_of(*high, *low) else {
                return Ok(None);
            };
            name.fallible_push(c)?;
        }
        Ok(Some(name))
    }
}

/// Returns the character that a unit of a name is, of which the two bytes are given. `None` for
/// zero and for surrogates.
#[cfg(feature = "alloc")]
#[inline]
fn character_of(high: u8, low: u8) -> Option<char> {
    let unit = high as u32 * 256 + low as u32;
    if unit == 0 {
        return None;
    }
    char::from_u32(unit)
}
