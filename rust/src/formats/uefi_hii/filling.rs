// @generated from proved source. It is not edited.

//! Buffers filled with the bytes that a text spells in hex.

#[cfg(feature = "alloc")]
use alloc::vec::Vec;
#[cfg(feature = "alloc")]
use crate::support::fallible::*;

#[cfg(feature = "alloc")]
use crate::formats::uefi_hii::hex::{HexBytes, byte_of_one, byte_of_two};
#[cfg(feature = "alloc")]
use crate::support::alloc::AllocError;
#[cfg(feature = "alloc")]
use crate::support::simd::prelude::*;

/// How many characters spell one byte.
#[cfg(feature = "alloc")]
const DIGITS_PER_BYTE: usize = 2;

/// How many bytes are made at a time.
#[cfg(feature = "alloc")]
const LANES: usize = 16;

/// Writes the bytes that a text spells in hex, those of
/// [`ConfigurationString::parse_bytes_from_hex`](crate::formats::uefi_hii::ConfigurationString::parse_bytes_from_hex),
/// to a buffer of as many bytes.
#[cfg(feature = "alloc")]
#[inline]
pub(crate) fn fill_from_hex(text: &str, out: &mut [u8]) {
    let text = text.as_bytes();
    let blocks = text.len() / (DIGITS_PER_BYTE * LANES);
    for block in 0..blocks {
        fill_block(text, out, LANES * block);
    }
    let end = out.len();
    fill_each(text, out, LANES * blocks, end);
}

/// Returns the bytes that a text spells in hex.
#[cfg(feature = "alloc")]
#[inline]
pub(crate) fn hex_bytes(text: &str) -> Result<Vec<u8>, AllocError> {
    let mut bytes = Vec::fallible_from_elem(0, HexBytes::new(text).len())?;
    fill_from_hex(text, &mut bytes);
    Ok(bytes)
}

/// Fills sixteen bytes from `start` on: in lanes if all their characters are digits.
#[cfg(feature = "alloc")]
#[inline]
fn fill_block(text: &[u8], out: &mut [u8], start: usize) {
    let first = u8x16::from_slice(&text[DIGITS_PER_BYTE * start..]);
    let second = u8x16::from_slice(&text[DIGITS_PER_BYTE * start + LANES..]);
    let (high, low) = first.deinterleave(second);
    if are_digits(high) && are_digits(low) {
        let bytes = digit_values(high) * u8x16::splat(16) + digit_values(low);
        bytes.copy_to_slice(&mut out[start..]);
    } else {
        fill_each(text, out, start, start + LANES);
    }
}

/// Returns whether each lane is a hex digit.
#[cfg(feature = "alloc")]
#[inline(always)]
fn are_digits(lanes: u8x16) -> bool {
    let number = lanes - u8x16::splat(b'0');
    let letter = (lanes | u8x16::splat(0x20)) - u8x16::splat(b'a');
    let wrong = number.simd_ge(u8x16::splat(10)) & letter.simd_ge(u8x16::splat(6));
    wrong.to_bitmask() == 0
}

/// Returns the values of hex digits, lane by lane.
#[cfg(feature = "alloc")]
#[inline(always)]
fn digit_values(digits: u8x16) -> u8x16 {
    let number = digits - u8x16::splat(b'0');
    let letter = (digits | u8x16::splat(0x20)) - u8x16::splat(b'a' - 10);
    number.simd_lt(u8x16::splat(10)).select(number, letter)
}

/// Fills the bytes from `start` up to `end`, one at a time.
#[cfg(feature = "alloc")]
#[inline]
fn fill_each(text: &[u8], out: &mut [u8], start: usize, end: usize) {
    for index in start..end {
        out[index] = byte_at(text, index);
    }
}

/// Returns the byte at an index.
#[cfg(feature = "alloc")]
#[inline(always)]
fn byte_at(text: &[u8], index: usize) -> u8 {
    let offset = DIGITS_PER_BYTE * index;
    if offset + 1 < text.len() {
        byte_of_two(text[offset], text[offset + 1])
    } else {
        byte_of_one(text[offset])
    }
}
