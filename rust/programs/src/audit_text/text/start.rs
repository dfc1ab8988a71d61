// @generated from proved source. It is not edited.

use crate::shown::ShownName;
use crate::support::alloc::AllocError;
use crate::uefi_audits::known_start::KnownStart;

/// Appends the line that says at which locality PCR 0 starts, if neither the log nor the caller states
/// one.
///
/// # Errors
///
/// [`AllocError`] if an allocation fails. The text may have grown then.
pub fn push_start(
    messages: &mut String,
    name: &str,
    known: &KnownStart,
) -> Result<(), AllocError> {
    if known.is_stated {
        return Ok(());
    }
    let (name, locality) = (ShownName(name), known.start.locality);
    fallible_writeln!(messages,
        "{name}: states no locality; PCR 0 starts at locality {locality}"
    )
}
