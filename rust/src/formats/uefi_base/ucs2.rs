// @generated from proved source. It is not edited.

use crate::formats::uefi_base::text_error::FromSliceWithNulError;

/// The largest number of units of a text, including its NUL.
pub(crate) const MAX_UNITS: usize = 1 << 31;

/// The last character that fits one unit.
#[cfg(feature = "alloc")]
pub(crate) const MAX_UNIT_CHARACTER: char = '\u{ffff}';

// The first and the last unit that are half of a surrogate pair of UTF-16.
const FIRST_SURROGATE: u16 = 0xd800;

const LAST_SURROGATE: u16 = 0xdfff;

/// Returns whether the unit is a character: neither a surrogate nor zero.
#[inline]
pub(crate) fn is_character(unit: u16) -> bool {
    unit != 0 && !is_surrogate(unit)
}

/// Returns whether the unit is half of a surrogate pair of UTF-16, which UCS-2 doesn't have.
#[inline]
fn is_surrogate(unit: u16) -> bool {
    matches!(unit, FIRST_SURROGATE..=LAST_SURROGATE)
}

/// Returns the error for `count` units that aren't text, where `first` is the first unit that isn't
/// a character, with its index.
#[inline]
pub(crate) fn fault_of(count: usize, first: Option<(usize, u16)>) -> Option<FromSliceWithNulError> {
    if count > MAX_UNITS {
        return Some(FromSliceWithNulError::TooLong);
    }
    let Some((index, unit)) = first else {
        return Some(FromSliceWithNulError::NotNulTerminated);
    };
    if is_surrogate(unit) {
        return Some(FromSliceWithNulError::InvalidChar(index));
    }
    if index + 1 < count {
        return Some(FromSliceWithNulError::InteriorNul(index));
    }
    None
}
