// @generated from proved source. It is not edited.

use uefi_formats::pcr::Ignored;
use crate::shown::ShownName;
use crate::support::alloc::AllocError;
use crate::uefi_audits::ignored::IgnoredEvent;

/// Appends a line for each event that has no effect on any PCR and should have: its index, its offset,
/// and why.
///
/// # Errors
///
/// [`AllocError`] if an allocation fails. The text may have grown then.
pub fn push_ignored(
    messages: &mut String,
    name: &str,
    events: &[IgnoredEvent],
) -> Result<(), AllocError> {
    for event in events {
        push_line(messages, name, event)?;
    }
    Ok(())
}

/// Appends the line of an event that has no effect.
fn push_line(
    messages: &mut String,
    name: &str,
    event: &IgnoredEvent,
) -> Result<(), AllocError> {
    let (name, index, offset, pcr) = (ShownName(name), event.index, event.offset, event.pcr);
    match event.why {
        Ignored::NoPcr => fallible_writeln!(messages,
            "{name}: event {index} at offset {offset} is of PCR {pcr}, which no TPM has"
        ),
        Ignored::OtherPcr => fallible_writeln!(messages,
            "{name}: event {index} at offset {offset} states the locality, and isn't of PCR 0"
        ),
        _ => unreachable!(),
    }
}
