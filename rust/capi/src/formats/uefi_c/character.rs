// @generated from proved source. It is not edited.

//! Characters of UCS-2, in UTF-8.

use crate::formats::uefi_base::buffer::put;

/// The most bytes that a character has in UTF-8.
const MAX_CHARACTER_LENGTH: usize = 4;

/// Returns the character that a unit is, or `None` for zero and for surrogates.
#[inline]
pub(crate) fn character_of(unit: u16) -> Option<char> {
    if unit == 0 {
        return None;
    }
    char::from_u32(u32::from(unit))
}

/// Writes a character in UTF-8 at the offset, and returns its length.
#[inline]
pub(crate) fn put_character(buffer: &mut [u8], offset: usize, c: char) -> usize {
    let mut bytes = [0; MAX_CHARACTER_LENGTH];
    let character = c.encode_utf8(&mut bytes).as_bytes();
    put(buffer, offset, character);
    character.len()
}
