// @generated from proved source. It is not edited.

use crate::support::fallible::*;

use crate::audit_text::words::push_number;
use uefi_formats::pcr::Bank;
use crate::shown::ShownName;
use crate::support::alloc::AllocError;
use crate::uefi_audits::naming::bank_name;

/// Appends a line for each of these banks, of which no event has a digest.
///
/// # Errors
///
/// [`AllocError`] if an allocation fails. The text may have grown then.
pub fn push_inactive(
    messages: &mut String,
    name: &str,
    banks: &[Bank],
) -> Result<(), AllocError> {
    for bank in banks {
        let (name, bank) = (ShownName(name), bank_name(*bank));
        fallible_writeln!(messages, "{name}: no event has a digest of the bank {bank}")?;
    }
    Ok(())
}

/// Appends which banks can't be replayed, those of these algorithms, if there are any.
///
/// # Errors
///
/// [`AllocError`] if an allocation fails. The text may have grown then.
pub fn push_unsupported(
    messages: &mut String,
    name: &str,
    algorithms: &[u16],
) -> Result<(), AllocError> {
    let Some((first, others)) = algorithms.split_first() else {
        return Ok(());
    };
    let name = ShownName(name);
    fallible_write!(messages, "{name}: not supported: the bank of algorithm ")?;
    push_number(messages, *first)?;
    push_others(messages, others)?;
    messages.fallible_push('\n')?;
    Ok(())
}

/// Appends further algorithms, each after a comma.
fn push_others(messages: &mut String, algorithms: &[u16]) -> Result<(), AllocError> {
    for algorithm in algorithms {
        messages.fallible_push_str(", ")?;
        push_number(messages, *algorithm)?;
    }
    Ok(())
}
