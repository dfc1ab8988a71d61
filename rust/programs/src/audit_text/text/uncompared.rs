// @generated from proved source. It is not edited.

use crate::shown::ShownName;
use crate::support::alloc::AllocError;

/// Appends which PCRs events extend that weren't compared, if there are any.
///
/// # Errors
///
/// [`AllocError`] if an allocation fails. The text may have grown then.
pub fn push_uncompared(
    messages: &mut String,
    name: &str,
    pcrs: &[u32],
) -> Result<(), AllocError> {
    match pcrs {
        [] => Ok(()),
        [first, others @ ..] => push_line(messages, name, *first, others),
    }
}

/// Appends the line of a PCR and further ones.
fn push_line(
    messages: &mut String,
    name: &str,
    first: u32,
    others: &[u32],
) -> Result<(), AllocError> {
    let name = ShownName(name);
    fallible_write!(messages, "{name}: not compared: PCR {first}")?;
    push_others(messages, others)?;
    fallible_writeln!(messages, ", which events extend")
}

/// Appends further PCRs, each after a comma.
pub(super) fn push_others(
    messages: &mut String,
    pcrs: &[u32],
) -> Result<(), AllocError> {
    for pcr in pcrs {
        fallible_write!(messages, ", {pcr}")?;
    }
    Ok(())
}
