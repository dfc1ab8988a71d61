// @generated from proved source. It is not edited.

use crate::test_support::bytes;
use crate::test_support::checks::{same, same_bytes, same_text};
use core::fmt::Debug;
use crate::support::test::Fail;

/// Checks what a function gives for the bytes of each row, which has them as hex.
///
/// # Errors
///
/// A failure that names the row and shows both values, at the first row where they differ; also if
/// a row isn't hex or an allocation fails.
pub fn each_reads<T, F>(rows: &[(&str, T)], read: F) -> Result<(), Fail>
where
    T: PartialEq + Debug,
    F: Fn(&[u8]) -> T,
{
    for (row, expected) in rows {
        let input = bytes(row)?;
        same(row, &read(input.as_slice()), expected)?;
    }
    Ok(())
}

/// Checks the bytes that a function makes of the bytes of each row, which has both as hex.
///
/// # Errors
///
/// A failure that names the row and shows both values, at the first row where they differ; the
/// failure of `make`; also if a row isn't hex or an allocation fails.
pub fn each_makes<F>(rows: &[[&str; 2]], make: F) -> Result<(), Fail>
where
    F: Fn(&[u8]) -> Result<Vec<u8>, Fail>,
{
    for [row, expected] in rows {
        let input = bytes(row)?;
        let expected = bytes(expected)?;
        let made = make(input.as_slice())?;
        same_bytes(row, made.as_slice(), expected.as_slice())?;
    }
    Ok(())
}

/// Checks the text that a function gives for the bytes of each row, which has them as hex.
///
/// # Errors
///
/// A failure that names the row and shows both texts, at the first row where they differ; the
/// failure of `show`; also if a row isn't hex or an allocation fails.
pub fn each_shows<F>(rows: &[[&str; 2]], show: F) -> Result<(), Fail>
where
    F: Fn(&[u8]) -> Result<String, Fail>,
{
    for [row, expected] in rows {
        let input = bytes(row)?;
        let text = show(input.as_slice())?;
        same_text(row, text.as_str(), expected)?;
    }
    Ok(())
}
