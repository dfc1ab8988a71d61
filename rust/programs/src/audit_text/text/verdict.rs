// @generated from proved source. It is not edited.

use crate::audit_text::text::agreement::push_agreement;
use uefi_formats::pcr::{PcrValue, Undetermined};
use crate::shown::ShownName;
use crate::support::alloc::AllocError;
use crate::uefi_audits::naming::bank_name;
use crate::uefi_audits::verify::{HeldPcr, Verdict, agrees, led_to, named_pcrs};

/// Appends whether a log leads to these PCRs: one line if it does, or else a line for each PCR that
/// doesn't agree. The lines name the log by `name`, and the locality at which PCR 0 starts.
///
/// # Errors
///
/// [`AllocError`] if an allocation fails. The text may have grown then.
pub fn push_verdict(
    text: &mut String,
    name: &str,
    held: &[HeldPcr],
    verdict: &Verdict,
) -> Result<(), AllocError> {
    if verdict.is_agreement() {
        let named = named_pcrs(held)?;
        return push_agreement(text, name, named.as_slice(), verdict.start.start.locality);
    }
    for pcr in held {
        push_if_disagreeing(text, name, pcr, verdict)?;
    }
    Ok(())
}

/// Appends the line of a PCR, unless it agrees.
fn push_if_disagreeing(
    text: &mut String,
    name: &str,
    held: &HeldPcr,
    verdict: &Verdict,
) -> Result<(), AllocError> {
    let replays = verdict.replays.as_slice();
    if agrees(held, replays) {
        return Ok(());
    }
    let (name, bank, pcr) = (ShownName(name), bank_name(held.bank), held.pcr);
    let digits = crate::hex::encode_upper(held.value.as_bytes())?;
    fallible_write!(text, "{name}: {bank} PCR {pcr} held 0x{digits}")?;
    let locality = verdict.start.start.locality;
    push_outcome(text, pcr, locality, led_to(held, replays))
}

/// Appends what the log leads to in a PCR.
fn push_outcome(
    text: &mut String,
    pcr: u32,
    locality: u8,
    outcome: Option<&Result<PcrValue, Undetermined>>,
) -> Result<(), AllocError> {
    match outcome {
        None => fallible_writeln!(text, ", and the log has no such PCR"),
        Some(Ok(value)) => push_value(text, pcr, locality, value),
        Some(Err(at)) => fallible_writeln!(text, ", undetermined: {at}"),
    }
}

/// Appends the value to which the log leads in a PCR, and for PCR 0 where it starts.
fn push_value(
    text: &mut String,
    pcr: u32,
    locality: u8,
    value: &PcrValue,
) -> Result<(), AllocError> {
    let digits = crate::hex::encode_upper(value.as_bytes())?;
    if pcr == 0 {
        return fallible_writeln!(text,
            ", the log leads to 0x{digits}, PCR 0 starts at locality {locality}"
        );
    }
    fallible_writeln!(text, ", the log leads to 0x{digits}")
}
