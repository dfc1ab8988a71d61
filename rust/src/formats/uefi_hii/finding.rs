// @generated from proved source. It is not edited.

//! The search for a byte.

use crate::support::simd::prelude::*;

/// How many bytes are compared at a time.
const LANES: usize = 16;

/// Returns the index of the first `byte`, if there is one.
#[inline(always)]
pub(crate) fn index_of(bytes: &[u8], byte: u8) -> Option<usize> {
    let mut index = 0;
    while LANES <= bytes.len() - index {
        if let Some(lane) = lane_of(bytes, byte, index) {
            return Some(index + lane);
        }
        index += LANES;
    }
    index_from(bytes, byte, index)
}

/// Returns how many of the sixteen bytes from `start` on come before the first `byte`, if it is
/// one of them.
#[inline(always)]
fn lane_of(bytes: &[u8], byte: u8, start: usize) -> Option<usize> {
    let found = u8x16::from_slice(&bytes[start..])
        .simd_eq(u8x16::splat(byte))
        .to_bitmask();
    if found == 0 {
        return None;
    }
    Some(found.trailing_zeros() as usize)
}

/// Returns the index of the first `byte`, one byte at a time from `start` on.
#[inline(always)]
fn index_from(bytes: &[u8], byte: u8, start: usize) -> Option<usize> {
    Some(start + bytes[start..].iter().position(|b| *b == byte)?)
}
