// @generated from proved source. It is not edited.

//! The search for the NUL of a name.

use crate::support::simd::prelude::*;
use crate::formats::uefi_base::UnalignedSlice;

/// The length of a unit, in bytes.
pub(crate) const UNIT_LENGTH: usize = 2;

/// How many units are compared at a time.
const LANES: usize = 16;

/// Returns the index of the first zero among the whole units of the bytes, or `None` if no unit is
/// zero.
///
/// A unit is two bytes, the low byte first; an odd last byte is in none.
#[inline]
pub(crate) fn first_zero_unit(bytes: &[u8]) -> Option<usize> {
    let mut index = 0;
    while index + LANES <= bytes.len() / UNIT_LENGTH {
        let run = nonzero_run(bytes, UNIT_LENGTH * index);
        if run < LANES {
            return Some(index + run);
        }
        index += LANES;
    }
    first_zero_from(bytes, index)
}

/// Returns how many of the sixteen units from the offset on come before the first zero.
#[inline]
fn nonzero_run(bytes: &[u8], offset: usize) -> usize {
    let units = u16x16::from_le_bytes(u8x32::from_slice(&bytes[offset..]));
    let zeros = units.simd_eq(u16x16::splat(0)).to_bitmask();
    (zeros.trailing_zeros() as usize).min(LANES)
}

/// Returns the index of the first zero among the units from `start` on, one unit at a time.
#[inline]
fn first_zero_from(bytes: &[u8], start: usize) -> Option<usize> {
    let (_, rest) = bytes.split_at(UNIT_LENGTH * start);
    let index = UnalignedSlice::new(&rest[..rest.len() / UNIT_LENGTH * UNIT_LENGTH])
        .iter()
        .position(|unit| unit == 0)?;
    Some(start + index)
}
