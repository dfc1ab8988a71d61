// @generated from proved source. It is not edited.

//! Buffers: the bound on their length, and writing the parts of a record into one.
//!
//! A function that writes puts one part at an offset and leaves all other bytes unchanged. The
//! caller makes sure that the part fits, so that a writer compares the length of its buffer once
//! for all parts.

/// Copies `part` into `buffer` at `offset`, and leaves all other bytes unchanged. The caller makes
/// sure that the part fits, so that a writer compares the length of its buffer once for all parts.
#[inline]
pub(crate) fn put(buffer: &mut [u8], offset: usize, part: &[u8]) {
    let end = offset + part.len();
    buffer[offset..end].copy_from_slice(part);
}

/// Copies `units` into `buffer` at `offset`, two bytes each, little-endian.
#[inline]
pub(crate) fn put_units(buffer: &mut [u8], offset: usize, units: &[u16]) {
    for (i, unit) in units.iter().enumerate() {
        put(buffer, offset + 2 * i, &unit.to_le_bytes());
    }
}
