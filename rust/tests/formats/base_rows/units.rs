// @generated from proved source. It is not edited.

use crate::support::fallible::*;

use crate::rows::hex_digits;
use crate::test_support::bytes;
use crate::uefi_base::UnalignedSlice;
use crate::uefi_base::little_endian::{u16_at, u32_at, u64_at};

/// What is left of an iterator over units before a step, by its length and its size hint, and what
/// the step gives.
type Step = (usize, (usize, Option<usize>), Option<u16>);

/// Returns the count of units, whether there is none, the first four by their indices, and five
/// steps of the iterator.
pub(crate) fn units(input: &[u8]) -> Option<(usize, bool, [Option<u16>; 4], [Step; 5])> {
    let slice = UnalignedSlice::try_new(input)?;
    let first = [slice.get(0), slice.get(1), slice.get(2), slice.get(3)];
    let mut left = slice.iter();
    let steps = [(); 5].map(|_| (left.len(), left.size_hint(), left.next()));
    Some((slice.len(), slice.is_empty(), first, steps))
}

/// Returns the count of units, the count of their characters and these, or `None` for an odd number
/// of bytes. The characters are the same displayed, and the iterator stays ended after them.
pub(crate) fn characters(input: &str) -> Option<String> {
    let input = bytes(input).ok()?;
    let Some(slice) = UnalignedSlice::try_new(input.as_slice()) else {
        return fallible_format!("None").ok();
    };
    let mut characters = slice.chars_lossy();
    let (length, count) = (slice.len(), characters.count());
    let mut text = String::new();
    while let Some(character) = characters.next() {
        text.fallible_push(character).ok()?;
    }
    let shown = fallible_format!("{slice}").ok()?;
    if characters.next().is_some() || shown != text {
        return fallible_format!("another text is displayed: {shown}").ok();
    }
    let text = hex_digits(text.as_str().as_bytes()).ok()?;
    fallible_format!("Some(({length}, {count}, {text}))").ok()
}

/// Returns the numbers of two, four and eight bytes after the first byte.
pub(crate) fn numbers(input: &[u8]) -> Option<(u16, u32, u64)> {
    if input.len() < 9 {
        return None;
    }
    Some((u16_at(input, 1), u32_at(input, 1), u64_at(input, 1)))
}
