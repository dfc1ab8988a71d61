// @generated from proved source. It is not edited.

//! Numbers in bytes, little-endian, as in all records of UEFI (UEFI 2.10, 1.8.1).
//!
//! The caller makes sure that its bytes are there, so that the reader of a record of known length
//! compares that length once for all fields.
//!
//! Each returns the field that the bytes begin with, and the bytes after it, or `None` if there are
//! too few.

/// Returns the number in the two bytes at `offset`.
#[inline]
pub(crate) fn u16_at(bytes: &[u8], offset: usize) -> u16 {
    u16::from_le_bytes([bytes[offset], bytes[offset + 1]])
}

/// Returns the number in the four bytes at `offset`.
#[inline]
pub(crate) fn u32_at(bytes: &[u8], offset: usize) -> u32 {
    let part = &bytes[offset..offset + 4];
    u32::from_le_bytes([part[0], part[1], part[2], part[3]])
}

/// Returns the number in the eight bytes at `offset`.
#[inline]
pub(crate) fn u64_at(bytes: &[u8], offset: usize) -> u64 {
    let part = &bytes[offset..offset + 8];
    u64::from_le_bytes([
        part[0], part[1], part[2], part[3], part[4], part[5], part[6], part[7],
    ])
}

/// Splits a number of one byte off.
#[inline]
pub(crate) fn split_u8(bytes: &[u8]) -> Option<(u8, &[u8])> {
    let (number, rest) = bytes.split_first()?;
    Some((*number, rest))
}

/// Splits a number of two bytes off.
#[inline]
pub(crate) fn split_u16(bytes: &[u8]) -> Option<(u16, &[u8])> {
    let (number, rest) = bytes.split_first_chunk()?;
    Some((u16::from_le_bytes(*number), rest))
}

/// Splits a number of four bytes off.
#[inline]
pub(crate) fn split_u32(bytes: &[u8]) -> Option<(u32, &[u8])> {
    let (number, rest) = bytes.split_first_chunk()?;
    Some((u32::from_le_bytes(*number), rest))
}

/// Splits this many bytes off.
#[inline]
pub(crate) fn split_bytes(bytes: &[u8], length: usize) -> Option<(&[u8], &[u8])> {
    bytes.split_at_checked(length)
}
