// @generated from proved source. It is not edited.

use core::mem::MaybeUninit;
use crate::bytes::{Buffer, Bytes};

use crate::formats::uefi_c::character::{character_of, put_character};
use crate::formats::uefi_c::status::{self, UefiStatus};
use crate::formats::uefi_hii::ConfigurationString;

/// Writes the name that the value of a pair with the key `NAME` spells, in UTF-8, to the beginning
/// of the buffer, and sets `size` to its length; the bytes after it stay as they were.
///
/// The value is a text in UTF-8 of an even number of bytes, which spells bytes in hex as for
/// `uefi_hex`. Two of them are a unit, the high byte first, and a character: not zero, and no
/// surrogate. An odd last byte is 0, and no unit. A name may be empty.
///
/// If it returns another status than success, all bytes stay as they were, and `size` is the length
/// that the buffer needs, or 0 if the value spells no name.
#[unsafe(no_mangle)]
pub extern "C" fn uefi_config_name(buffer: Buffer<'_>, value: Bytes<'_>, size: &mut MaybeUninit<usize>) -> UefiStatus {
    let buffer = buffer.into_slice();
    let value = value.as_slice();
    let Ok(text) = core::str::from_utf8(value) else {
        size.write(0);
        return status::NOT_TEXT;
    };
    let Some(length) = name_length(text) else {
        size.write(0);
        return status::NOT_TEXT;
    };
    size.write(length);
    if buffer.len() < length {
        return status::BUFFER_TOO_SMALL;
    }
    write_name(text, buffer);
    status::OK
}

/// Returns the length in UTF-8 of the name that a value spells, or `None` if it spells none.
#[inline]
fn name_length(text: &str) -> Option<usize> {
    if text.len() % 2 != 0 {
        return None;
    }
    let mut length = 0;
    let mut bytes = ConfigurationString::parse_bytes_from_hex(text);
    while let Some(high) = bytes.next() {
        let Some(low) = bytes.next() else {
            return if high == 0 { Some(length) } else { None };
        };
        let character = character_of(unit_of(high, low))?;
        length += character.len_utf8();
    }
    Some(length)
}

/// Writes the name that a value spells to the beginning of the buffer.
#[inline]
fn write_name(text: &str, buffer: &mut [u8]) {
    let mut offset = 0;
    let mut bytes = ConfigurationString::parse_bytes_from_hex(text);
    while let Some(high) = bytes.next() {
        let Some(low) = bytes.next() else {
            return;
        };
        let Some(character) = character_of(unit_of(high, low)) else {
            return;
        };
        offset += put_character(buffer, offset, character);
    }
}

/// Returns the unit of two bytes, the high byte first.
#[inline]
fn unit_of(high: u8, low: u8) -> u16 {
    u16::from(high) * 256 + u16::from(low)
}
