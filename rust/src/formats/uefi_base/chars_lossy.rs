// @generated from proved source. It is not edited.

use core::fmt::Write as _;

use crate::formats::uefi_base::unaligned::UnalignedSliceIter;
use core::fmt;
use core::iter::FusedIterator;

/// An iterator over the characters of units in UTF-16, up to the first NUL or the end.
///
/// The units of a surrogate pair are one character (Unicode, 3.9, D91), and a surrogate that isn't
/// in a pair is U+FFFD, as in `char::decode_utf16` with `char::REPLACEMENT_CHARACTER`. After the
/// last character it returns `None` forever.
#[derive(Clone, Copy, Debug)]
pub struct CharsLossy<'a> {
    /// The units that weren't read yet, with those from the NUL on.
    units: UnalignedSliceIter<'a>,
}

impl<'a> CharsLossy<'a> {
    /// Returns an iterator over the characters of the units.
    #[inline]
    pub(crate) fn new(units: UnalignedSliceIter<'a>) -> CharsLossy<'a> {
        CharsLossy { units }
    }

    /// Takes the next unit, unless it is the NUL.
    #[inline]
    fn next_unit(&mut self) -> Option<u16> {
        let mut rest = self.units;
        let unit = rest.next()?;
        if unit == 0 {
            return None;
        }
        self.units = rest;
        Some(unit)
    }
}

impl Iterator for CharsLossy<'_> {
    type Item = char;

    #[inline]
    fn next(&mut self) -> Option<char> {
        let first = self.next_unit()?;
        let mut after = *self;
        if let Some(second) = after.next_unit() {
            if let Some(character) = pair_character(first, second) {
                *self = after;
                return Some(character);
            }
        }
        Some(lone_character(first))
    }
}

impl FusedIterator for CharsLossy<'_> {}

/// Returns the character of a unit that is in no pair: U+FFFD for a surrogate.
#[inline]
fn lone_character(unit: u16) -> char {
    char::from_u32(u32::from(unit)).unwrap_or(char::REPLACEMENT_CHARACTER)
}

/// Returns the character of a pair of surrogates, or `None` if the units aren't one.
#[inline]
fn pair_character(first: u16, second: u16) -> Option<char> {
    let (high, low) = (0xd800..0xdc00, 0xdc00..0xe000);
    if !high.contains(&first) || !low.contains(&second) {
        return None;
    }
    let high = u32::from(first) - 0xd800;
    char::from_u32(0x1_0000 + high * 0x400 + (u32::from(second) - 0xdc00))
}

/// Writes the characters.
#[inline]
pub(crate) fn write_characters(
    f: &mut fmt::Formatter<'_>,
    characters: CharsLossy<'_>,
) -> fmt::Result {
    for character in characters {
        f.write_char(character)?;
    }
    Ok(())
}
