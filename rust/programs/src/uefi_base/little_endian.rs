// @generated from proved source. It is not edited.

//! Numbers in bytes, little-endian, as in all records of UEFI (UEFI 2.10, 1.8.1).
//!
//! [`u16_at`], [`u32_at`] and [`u64_at`] read a number at an offset. The caller makes sure that its
//! bytes are there, so that the reader of a record of known length compares that length once for
//! all fields.
//!
//! [`split_u8`], [`split_u16`], [`split_u32`] and [`split_bytes`] are for the fields of a record of
//! variable length. Each returns the field that the bytes begin with, and the bytes after it, or
//! `None` if there are too few.

/// Returns the number in the two bytes at `offset`.
pub fn u16_at(bytes: &[u8], offset: usize) -> u16 {
    u16::from_le_bytes([bytes[offset], bytes[offset + 1]])
}

/// Returns the number in the four bytes at `offset`.
pub fn u32_at(bytes: &[u8], offset: usize) -> u32 {
    let part = &bytes[offset..offset + 4];
    u32::from_le_bytes([part[0], part[1], part[2], part[3]])
}

/// Returns the number in the eight bytes at `offset`.
pub fn u64_at(bytes: &[u8], offset: usize) -> u64 {
    let part = &bytes[offset..offset + 8];
    u64::from_le_bytes([
        part[0], part[1], part[2], part[3], part[4], part[5], part[6], part[7],
    ])
}

/// Splits a number of one byte off.
pub fn split_u8(bytes: &[u8]) -> Option<(u8, &[u8])> {
    let (number, rest) = bytes.split_first()?;
    Some((*number, rest))
}

/// Splits a number of two bytes off.
pub fn split_u16(bytes: &[u8]) -> Option<(u16, &[u8])> {
    let (number, rest) = bytes.split_first_chunk()?;
    Some((u16::from_le_bytes(*number), rest))
}

/// Splits a number of four bytes off.
pub fn split_u32(bytes: &[u8]) -> Option<(u32, &[u8])> {
    let (number, rest) = bytes.split_first_chunk()?;
    Some((u32::from_le_bytes(*number), rest))
}

/// Splits this many bytes off.
pub fn split_bytes(bytes: &[u8], length: usize) -> Option<(&[u8], &[u8])> {
    bytes.split_at_checked(length)
}
