// @generated from proved source. It is not edited.

use crate::support::fallible::*;

use crate::audit_text::words::texts::text_before_nul;
use crate::support::alloc::AllocError;
use uefi_formats::UnalignedSlice;

/// Returns the text that bytes are, if all of it prints: two characters of ASCII or more, of one byte
/// each or, as in UTF-16, of two, with a NUL after the last one or without it.
pub(crate) fn printed_text(bytes: &[u8]) -> Result<Option<String>, AllocError> {
    let text = bytes_before_nul(bytes)?;
    if let Some(text) = if_printed(text, bytes.len()) {
        return Ok(Some(text));
    }
    if bytes.len() % 2 != 0 {
        return Ok(None);
    }
    let units = UnalignedSlice::new(bytes);
    let text = text_before_nul(&units)?;
    Ok(if_printed(text, units.len()))
}

/// Returns the text before the first NUL of so many characters, if it has more than one, all of it
/// prints, and no more than that NUL follows. One character alone is as likely a number.
fn if_printed(text: String, count: usize) -> Option<String> {
    if text.len() > 1 && count <= text.len() + 1 && are_printed(text.as_bytes()) {
        return Some(text);
    }
    None
}

/// Returns whether each byte of a text prints.
fn are_printed(bytes: &[u8]) -> bool {
    bytes.iter().all(|byte| matches!(*byte, b' '..=b'~' | b'\t' | b'\n' | b'\r'))
}

/// Returns the bytes before the first NUL as text: each is the character of its number.
fn bytes_before_nul(bytes: &[u8]) -> Result<String, AllocError> {
    let mut text = String::new();
    let mut rest = bytes;
    while let [byte, after @ ..] = rest {
        if *byte == 0 {
            return Ok(text);
        }
        text.fallible_push(char::from(*byte))?;
        rest = after;
    }
    Ok(text)
}
