// @generated from proved source. It is not edited.

use crate::support::fallible::*;

use crate::hex::FromHexError;
use uefi_formats::pcr::{Bank, PcrValue};
use crate::support::alloc::AllocError;

/// Returns the name in the line that a bank begins with, as `tpm2_pcrread` prints it: two spaces,
/// the name and a colon. `None` for another line, or if the name isn't UTF-8.
pub(crate) fn bank_in_line(line: &[u8]) -> Option<&str> {
    let Some(name) = name_in_line(line) else {
        return None;
    };
    match core::str::from_utf8(name) {
        Ok(name) => Some(name),
        Err(_) => None,
    }
}

/// Returns the bytes between two spaces that a line begins with and a colon at its end.
fn name_in_line(line: &[u8]) -> Option<&[u8]> {
    match line {
        [b' ', b' ', name @ .., b':'] => Some(name),
        _ => None,
    }
}

/// Returns the number and the digits in the line of a PCR, as `tpm2_pcrread` prints it: four
/// spaces, the number as wide as two digits, `: 0x` and hex digits. `None` for another line.
pub(crate) fn pcr_in_line(line: &[u8]) -> Option<(u32, &[u8])> {
    match line {
        [
            b' ',
            b' ',
            b' ',
            b' ',
            first,
            second,
            b':',
            b' ',
            b'0',
            b'x',
            digits @ ..,
        ] => Some((number_in(*first, *second)?, digits)),
        _ => None,
    }
}

/// Returns the number and the digits in the line of a PCR of TPM 1.2, as Linux has it: `PCR-`, two
/// digits, a colon, and each byte as a space and two hex digits. `None` for another line.
pub(crate) fn tpm1_pcr_in_line(
    line: &[u8],
) -> Result<Option<(u32, Vec<u8>)>, AllocError> {
    let [b'P', b'C', b'R', b'-', tens, ones, b':', spaced @ ..] = line else {
        return Ok(None);
    };
    let Some(number) = two_digits(*tens, *ones) else {
        return Ok(None);
    };
    match unspaced(spaced)? {
        Some(digits) => Ok(Some((number, digits))),
        None => Ok(None),
    }
}

/// Returns the number in two characters: one digit and a space, or two digits.
fn number_in(first: u8, second: u8) -> Option<u32> {
    if first.is_ascii_digit() && second == b' ' {
        return Some(u32::from(first - b'0'));
    }
    two_digits(first, second)
}

/// Returns the number in two digits.
pub(crate) fn two_digits(tens: u8, ones: u8) -> Option<u32> {
    if tens.is_ascii_digit() && ones.is_ascii_digit() {
        return Some(10 * u32::from(tens - b'0') + u32::from(ones - b'0'));
    }
    None
}

/// Returns the hex digits of bytes that are each a space and two digits; a space may end them.
fn unspaced(text: &[u8]) -> Result<Option<Vec<u8>>, AllocError> {
    let mut digits = Vec::new();
    let mut rest = text;
    while let Some((high, low, after)) = split_byte(rest) {
        digits.fallible_push(high)?;
        digits.fallible_push(low)?;
        rest = after;
    }
    if is_end(rest) {
        return Ok(Some(digits));
    }
    Ok(None)
}

/// Returns the two digits after the space that a text begins with, and the rest.
fn split_byte(text: &[u8]) -> Option<(u8, u8, &[u8])> {
    match text {
        [b' ', high, low, rest @ ..] => Some((*high, *low, rest)),
        _ => None,
    }
}

/// Returns whether a text is empty or one space.
fn is_end(text: &[u8]) -> bool {
    match text {
        [] => true,
        [byte] => *byte == b' ',
        _ => false,
    }
}

/// Returns the value that hex digits state for a PCR of a bank; `None` if they state none, or
/// one that hasn't the bank's length.
pub(crate) fn value_in(
    bank: Bank,
    digits: &[u8],
) -> Result<Option<PcrValue>, AllocError> {
    let bytes = match crate::hex::decode(digits) {
        Ok(bytes) => bytes,
        Err(FromHexError::OutOfMemory) => return Err(AllocError),
        Err(_) => return Ok(None),
    };
    if bytes.len() != bank.size() {
        return Ok(None);
    }
    Ok(Some(PcrValue::new(bytes.as_slice())))
}
