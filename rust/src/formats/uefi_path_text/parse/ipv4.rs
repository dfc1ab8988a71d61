// @generated from proved source. It is not edited.

//! IPv4 addresses, read.

use crate::formats::uefi_path_text::parse::cut::cut;
use crate::formats::uefi_path_text::parse::number::read_digits;

/// Reads an IPv4 address: four decimal numbers.
///
/// # Errors
///
/// The offset of the first character that no address has there.
#[inline]
pub(crate) fn read_ipv4(text: &[u8]) -> Result<[u8; 4], usize> {
    let mut address = [0; 4];
    let mut rest = Some(text);
    let mut start = 0;
    for byte in &mut address {
        let Some(parts) = rest else {
            return Err(text.len());
        };
        let (part, others) = cut(parts, b'.');
        *byte = read_octet(part, start)?;
        start += part.len() + 1;
        rest = others;
    }
    match rest {
        None => Ok(address),
        Some(_) => Err(start - 1),
    }
}

/// Reads a part of an IPv4 address that is at an offset.
#[inline]
fn read_octet(part: &[u8], start: usize) -> Result<u8, usize> {
    match read_digits(part, 10, 255) {
        Ok(octet) => Ok(octet as u8),
        Err(offset) => Err(start + offset),
    }
}
