// @generated from proved source. It is not edited.

use core::mem::MaybeUninit;
use crate::bytes::{Buffer, Bytes};

use crate::formats::uefi_c::status::{self, UefiStatus};
use crate::formats::uefi_hii::{ConfigurationString, fill_from_hex};

/// Writes the bytes that a text in UTF-8 spells in hex to the beginning of the buffer, and sets
/// `size` to their number; the bytes after them stay as they were.
///
/// If it returns another status than success, all bytes stay as they were, and `size` is the length
/// that the buffer needs, or 0 if the text isn't UTF-8.
#[unsafe(no_mangle)]
pub extern "C" fn uefi_hex(buffer: Buffer<'_>, text: Bytes<'_>, size: &mut MaybeUninit<usize>) -> UefiStatus {
    let buffer = buffer.into_slice();
    let text = text.as_slice();
    let Ok(text) = core::str::from_utf8(text) else {
        size.write(0);
        return status::NOT_TEXT;
    };
    let length = ConfigurationString::parse_bytes_from_hex(text).len();
    size.write(length);
    if buffer.len() < length {
        return status::BUFFER_TOO_SMALL;
    }
    let (bytes, _) = buffer.split_at_mut(length);
    fill_from_hex(text, bytes);
    status::OK
}
