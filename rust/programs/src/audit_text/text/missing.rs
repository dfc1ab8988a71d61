// @generated from proved source. It is not edited.

use crate::shown::ShownName;
use crate::support::alloc::AllocError;
use crate::uefi_audits::naming::bank_name;
use crate::uefi_audits::verify::NamedPcr;

/// Appends a line for each PCR that is asked for and not stated, by the name of the file that states the
/// PCRs.
///
/// # Errors
///
/// [`AllocError`] if an allocation fails. The text may have grown then.
pub fn push_missing(
    messages: &mut String,
    name: &str,
    missing: &[NamedPcr],
) -> Result<(), AllocError> {
    for pcr in missing {
        let (name, bank, pcr) = (ShownName(name), bank_name(pcr.bank), pcr.pcr);
        fallible_writeln!(messages,
            "{name}: states no {bank} PCR {pcr}, which is asked for"
        )?;
    }
    Ok(())
}
