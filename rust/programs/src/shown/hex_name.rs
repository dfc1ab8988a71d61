// @generated from proved source. It is not edited.

//! Names of files and descriptions, displayed by their units.

use crate::shown::hex_text::write_hex;
use core::fmt;
use uefi_formats::UnalignedSlice;

/// How many units of a name are written at a time.
const BLOCK_UNITS: usize = 32;

/// How many bytes these units have.
const BLOCK_BYTES: usize = 64;

/// A name with its NUL, displayed as a space and its characters, four hex digits each; as nothing
/// if it has none.
#[derive(Clone, Copy, Debug)]
pub struct HexName<'a>(pub UnalignedSlice<'a>);

impl fmt::Display for HexName<'_> {
    fn fmt(&self, f: &mut fmt::Formatter<'_>) -> fmt::Result {
        let count = self.0.len().saturating_sub(1);
        if count == 0 {
            return Ok(());
        }
        f.write_str(" ")?;
        write_units(f, &self.0, count)
    }
}

/// Writes four hex digits for each of the first units, a block at a time.
fn write_units(
    f: &mut fmt::Formatter<'_>,
    units: &UnalignedSlice<'_>,
    count: usize,
) -> fmt::Result {
    let mut start = 0;
    while start < count {
        let end = start + BLOCK_UNITS.min(count - start);
        let mut room = [0; BLOCK_BYTES];
        let bytes = &mut room[..2 * (end - start)];
        fill_big_endian(bytes, units, start, end);
        write_hex(f, bytes)?;
        start = end;
    }
    Ok(())
}

/// Fills the bytes with the units from one index up to another, each with its high byte first.
fn fill_big_endian(bytes: &mut [u8], units: &UnalignedSlice<'_>, start: usize, end: usize) {
    for i in start..end {
        let [high, low] = units.get(i).unwrap_or(0).to_be_bytes();
        bytes[2 * (i - start)] = high;
        bytes[2 * (i - start) + 1] = low;
    }
}
