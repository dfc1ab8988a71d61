// @generated from proved source. It is not edited.

use crate::formats::uefi_hii::digit::hex_digit;
use core::iter::{ExactSizeIterator, FusedIterator};

/// The bytes that a text spells in hex, from either end.
///
/// Two characters of the text spell one byte, and so does an odd last character. Two hex digits, in
/// either case, give their number. `+` and a digit, or a digit alone, give that digit. All else
/// gives 0: no text is refused.
///
/// After the last byte the iterator stays ended. Its [`len`](ExactSizeIterator::len) and
/// [`size_hint`](Iterator::size_hint) are exact.
#[derive(Clone, Copy)]
pub struct HexBytes<'a> {
    rest: &'a [u8],
}

impl core::fmt::Debug for HexBytes<'_> {
    fn fmt(&self, f: &mut core::fmt::Formatter<'_>) -> core::fmt::Result {
        f.debug_struct("HexBytes")
            .field("rest", &crate::support::debug::Bytes(self.rest))
            .finish()
    }
}

impl<'a> HexBytes<'a> {
    /// Returns the bytes that the text spells.
    #[cfg(feature = "alloc")]
    #[inline]
    pub(crate) fn new(text: &'a str) -> HexBytes<'a> {
        let rest = text.as_bytes();
        HexBytes { rest }
    }
}

impl<'a> Iterator for HexBytes<'a> {
    type Item = u8;

    #[inline]
    fn next(&mut self) -> Option<u8> {
        match self.rest {
            [] => None,
            [c] => {
                let byte = byte_of_one(*c);
                self.rest = &[];
                Some(byte)
            }
            [c, d, rest @ ..] => {
                let byte = byte_of_two(*c, *d);
                self.rest = rest;
                Some(byte)
            }
        }
    }

    /// Returns how many bytes are left, as both bounds.
    #[inline]
    fn size_hint(&self) -> (usize, Option<usize>) {
        let length = self.len();
        (length, Some(length))
    }
}

impl<'a> DoubleEndedIterator for HexBytes<'a> {
    #[inline]
    fn next_back(&mut self) -> Option<u8> {
        let (before, byte) = split_last_byte(self.rest)?;
        self.rest = before;
        Some(byte)
    }
}

impl<'a> ExactSizeIterator for HexBytes<'a> {
    /// Returns how many bytes are left.
    #[inline]
    fn len(&self) -> usize {
        self.rest.len() / 2 + self.rest.len() % 2
    }
}

impl<'a> FusedIterator for HexBytes<'a> {}

/// Returns the last byte that a text spells, and the text before its characters.
#[inline]
fn split_last_byte(text: &[u8]) -> Option<(&[u8], u8)> {
    let (last, before) = text.split_last()?;
    if text.len() % 2 != 0 {
        return Some((before, byte_of_one(*last)));
    }
    let (first, before) = before.split_last()?;
    Some((before, byte_of_two(*first, *last)))
}

/// Returns the byte that two characters spell.
#[inline]
pub(crate) fn byte_of_two(c: u8, d: u8) -> u8 {
    match (hex_digit(c), hex_digit(d)) {
        (Some(high), Some(low)) => high * 16 + low,
        _ if c == b'+' => byte_of_one(d),
        _ => 0,
    }
}

/// Returns the byte that one character spells.
#[inline]
pub(crate) fn byte_of_one(c: u8) -> u8 {
    hex_digit(c).unwrap_or(0)
}
