// @generated from proved source. It is not edited.

use crate::support::alloc::AllocError;

/// Appends an algorithm's number in hex: `0x`, and two digits or more.
///
/// # Errors
///
/// [`AllocError`] if an allocation fails. The text may have grown then.
pub fn push_number(text: &mut String, algorithm: u16) -> Result<(), AllocError> {
    if algorithm < 16 {
        return fallible_write!(text, "0x0{algorithm:x}");
    }
    fallible_write!(text, "0x{algorithm:x}")
}
