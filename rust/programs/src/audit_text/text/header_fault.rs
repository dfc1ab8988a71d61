// @generated from proved source. It is not edited.

use crate::shown::ShownName;
use crate::support::alloc::AllocError;
use crate::uefi_audits::header_fault::HeaderFault;

/// Appends why the event that a log begins with isn't its header, if it should be.
///
/// # Errors
///
/// [`AllocError`] if an allocation fails. The text may have grown then.
pub fn push_header_fault(
    messages: &mut String,
    name: &str,
    fault: Option<HeaderFault>,
) -> Result<(), AllocError> {
    let name = ShownName(name);
    match fault {
        Some(HeaderFault::Pcr(pcr)) => fallible_writeln!(messages,
            "{name}: its header is of PCR {pcr}, not of PCR 0, so that it is read as version 1"
        ),
        Some(HeaderFault::Digest) => fallible_writeln!(messages,
            "{name}: the digest of its header isn't zero, so that it is read as version 1"
        ),
        None => Ok(()),
    }
}
