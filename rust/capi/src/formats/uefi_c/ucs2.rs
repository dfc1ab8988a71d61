// @generated from proved source. It is not edited.

//! UCS-2 text in bytes, and in UTF-8.

use core::mem::MaybeUninit;
use crate::bytes::{Buffer, Bytes};

use crate::formats::uefi_c::character::{character_of, put_character};
use crate::formats::uefi_c::status::{self, UefiStatus};
use crate::formats::uefi_base::buffer::put;
use crate::formats::uefi_base::little_endian::u16_at;

/// The largest number of units of a text, including its NUL.
const MAX_UNITS: usize = 1 << 31;

/// The last character that fits one unit.
const MAX_UNIT_CHARACTER: char = '\u{ffff}';

/// The bytes of a unit.
const UNIT_LENGTH: usize = 2;

/// Writes the characters of UCS-2 text in UTF-8, without the NUL, to the beginning of the buffer,
/// and sets `size` to their length; the bytes after them stay as they were.
///
/// The text is all of `units`: two bytes each, little-endian, of which the last is zero, and no
/// other is zero or a surrogate. There are at most 2^31.
///
/// If it returns another status than success, all bytes stay as they were, and `size` is the length
/// that the buffer needs, or 0 if the units are no text.
#[unsafe(no_mangle)]
pub extern "C" fn uefi_ucs2_text(buffer: Buffer<'_>, units: Bytes<'_>, size: &mut MaybeUninit<usize>) -> UefiStatus {
    let buffer = buffer.into_slice();
    let units = units.as_slice();
    let Some(length) = text_length(units) else {
        size.write(0);
        return status::NOT_TEXT;
    };
    size.write(length);
    if buffer.len() < length {
        return status::BUFFER_TOO_SMALL;
    }
    write_text(units, buffer);
    status::OK
}

/// Writes a text in UTF-8 as UCS-2 to the beginning of the buffer, two bytes for each character and
/// for the NUL, little-endian, and sets `size` to their number; the bytes after them stay as they
/// were.
///
/// If it returns another status than success, all bytes stay as they were, and `size` is the length
/// that the buffer needs, or 0 if the text isn't UTF-8, has 2^31 characters or more, or has one
/// that is U+0000 or above U+FFFF.
#[unsafe(no_mangle)]
pub extern "C" fn uefi_ucs2_units(buffer: Buffer<'_>, text: Bytes<'_>, size: &mut MaybeUninit<usize>) -> UefiStatus {
    let buffer = buffer.into_slice();
    let text = text.as_slice();
    let Ok(text) = core::str::from_utf8(text) else {
        size.write(0);
        return status::NOT_TEXT;
    };
    let Some(length) = units_length(text) else {
        size.write(0);
        return status::NOT_TEXT;
    };
    size.write(length);
    if buffer.len() < length {
        return status::BUFFER_TOO_SMALL;
    }
    write_units(text, buffer);
    status::OK
}

/// Returns whether the bytes are the units of a text.
#[inline]
pub(crate) fn is_ucs2(units: &[u8]) -> bool {
    text_length(units).is_some()
}

/// Returns the length of a text in UTF-8, or `None` if the bytes aren't the units of one.
#[inline]
fn text_length(units: &[u8]) -> Option<usize> {
    let count = count_before_nul(units)?;
    utf8_length(units, count)
}

/// Returns the number of units before the last one. `None` if that one isn't zero, if the bytes
/// aren't whole units, and if there are none or more than 2^31.
#[inline]
fn count_before_nul(units: &[u8]) -> Option<usize> {
    let count = units.len() / UNIT_LENGTH;
    if units.len() % UNIT_LENGTH != 0 {
        return None;
    }
    if count == 0 {
        return None;
    }
    if count > MAX_UNITS {
        return None;
    }
    if u16_at(units, UNIT_LENGTH * (count - 1)) != 0 {
        return None;
    }
    Some(count - 1)
}

/// Returns the length in UTF-8 of the first units, or `None` if one isn't a character.
#[inline]
fn utf8_length(units: &[u8], count: usize) -> Option<usize> {
    let mut length = 0;
    for index in 0..count {
        let Some(character) = character_of(u16_at(units, UNIT_LENGTH * index)) else {
            return None;
        };
        length += character.len_utf8();
    }
    Some(length)
}

/// Writes the characters of a text in UTF-8 to the beginning of the buffer.
#[inline]
fn write_text(units: &[u8], buffer: &mut [u8]) {
    let count = units.len() / UNIT_LENGTH - 1;
    let mut offset = 0;
    for index in 0..count {
        let Some(character) = character_of(u16_at(units, UNIT_LENGTH * index)) else {
            return;
        };
        offset += put_character(buffer, offset, character);
    }
}

/// Returns the length of the units of a text, the NUL too, or `None` if a character has no unit, or
/// there are too many.
#[inline]
fn units_length(text: &str) -> Option<usize> {
    let count = char_count(text);
    if count >= MAX_UNITS {
        return None;
    }
    match first_without_unit(text) {
        Some(_) => None,
        None => Some(UNIT_LENGTH * (count + 1)),
    }
}

/// Returns the number of characters.
#[inline]
fn char_count(text: &str) -> usize {
    text.chars().count()
}

/// Returns the first character that has no unit of its own.
#[inline]
fn first_without_unit(text: &str) -> Option<char> {
    text.chars().find(|c| !has_unit(*c))
}

/// Returns whether the character has a unit of its own that isn't the NUL.
#[inline]
fn has_unit(c: char) -> bool {
    c != '\0' && c <= MAX_UNIT_CHARACTER
}

/// Writes the units of a text, and the NUL, to the beginning of the buffer.
#[inline]
fn write_units(text: &str, buffer: &mut [u8]) {
    let mut offset = 0;
    for c in text.chars() {
        put(buffer, offset, &(c as u16).to_le_bytes());
        offset += UNIT_LENGTH;
    }
    put(buffer, offset, &[0, 0]);
}
