// @generated from proved source. It is not edited.

use crate::support::fallible::*;

use crate::hex::FromHexError;
use crate::support::alloc::AllocError;
use core::fmt;
use crate::test_support::bytes;

/// Answers a row whose input is bytes as hex: returns what `Debug` prints of what a function
/// returns for them, or `None` if memory ran out.
pub fn hex_row<T: fmt::Debug, F>(input: &str, call: F) -> Option<String>
where
    F: Fn(&[u8]) -> T,
{
    match bytes(input) {
        Ok(input) => {
            let found = call(input.as_slice());
            fallible_format!("{found:?}").ok()
        }
        Err(FromHexError::OutOfMemory) => None,
        Err(_) => fallible_format!("the input is no hex").ok(),
    }
}

/// Answers a row whose input is bytes as hex, ` ; ` and more bytes, as [`hex_row`] does.
pub fn hex_pair_row<T: fmt::Debug, F>(input: &str, call: F) -> Option<String>
where
    F: Fn(&[u8], &[u8]) -> T,
{
    let Some((one, other)) = input.split_once(" ; ") else {
        return fallible_format!("the input is no pair").ok();
    };
    match (bytes(one), bytes(other)) {
        (Ok(one), Ok(other)) => {
            let found = call(one.as_slice(), other.as_slice());
            fallible_format!("{found:?}").ok()
        }
        (Err(FromHexError::OutOfMemory), _) | (_, Err(FromHexError::OutOfMemory)) => None,
        _ => fallible_format!("the input is no hex").ok(),
    }
}

/// Returns a text in quotes, as `Debug` prints it.
///
/// # Errors
///
/// [`AllocError`] if an allocation fails.
pub fn quoted(text: &str) -> Result<String, AllocError> {
    fallible_format!("{text:?}")
}

/// Returns bytes as `x"..."`, two hex digits a byte.
///
/// # Errors
///
/// [`AllocError`] if an allocation fails.
pub fn hex_digits(bytes: &[u8]) -> Result<String, AllocError> {
    let mut text = String::new();
    text.fallible_push_str("x\"")?;
    for byte in bytes {
        fallible_write!(text, "{byte:02x}")?;
    }
    text.fallible_push('"')?;
    Ok(text)
}
