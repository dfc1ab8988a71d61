// @generated from proved source. It is not edited.

use core::fmt::Debug;
use crate::support::test::Fail;

/// Checks that the two values are equal.
///
/// # Errors
///
/// A failure that names the row and shows both values, if they differ.
pub fn same<T: PartialEq + Debug>(row: &str, found: &T, expected: &T) -> Result<(), Fail> {
    if *found == *expected {
        return Ok(());
    }
    Err(Fail::new(format_args!("{row}: found {found:?}, expected {expected:?}")))
}

/// Checks that the two texts are equal.
///
/// # Errors
///
/// A failure that names the row and shows both texts, if they differ.
pub fn same_text(row: &str, found: &str, expected: &str) -> Result<(), Fail> {
    if found == expected {
        return Ok(());
    }
    Err(Fail::new(format_args!("{row}: found {found:?}, expected {expected:?}")))
}

/// Checks that the two slices hold the same bytes.
///
/// # Errors
///
/// A failure that names the row and shows both slices, if they differ.
pub fn same_bytes(row: &str, found: &[u8], expected: &[u8]) -> Result<(), Fail> {
    if found == expected {
        return Ok(());
    }
    Err(Fail::new(format_args!("{row}: found {found:?}, expected {expected:?}")))
}

/// Checks that a condition holds.
///
/// # Errors
///
/// A failure that names the row, if the condition doesn't hold.
pub fn holds(row: &str, is_so: bool) -> Result<(), Fail> {
    if is_so {
        return Ok(());
    }
    Err(Fail::new(format_args!("{row}: it does not hold")))
}
