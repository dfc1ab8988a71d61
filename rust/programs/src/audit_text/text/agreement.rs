// @generated from proved source. It is not edited.

use crate::support::fallible::*;

use crate::shown::ShownName;
use crate::support::alloc::AllocError;
use crate::uefi_audits::naming::bank_name;
use crate::uefi_audits::verify::NamedPcr;

/// Appends the line of PCRs that all agree: each bank with its PCRs, those that follow one another as
/// a range, and where PCR 0 starts.
pub(super) fn push_agreement(
    text: &mut String,
    name: &str,
    pcrs: &[NamedPcr],
    locality: u8,
) -> Result<(), AllocError> {
    let name = ShownName(name);
    fallible_write!(text, "{name}: agrees: ")?;
    push_ranges(text, pcrs)?;
    fallible_writeln!(text, " (PCR 0 starts at locality {locality})")
}

/// Appends each bank with its PCRs.
pub(super) fn push_ranges(
    text: &mut String,
    pcrs: &[NamedPcr],
) -> Result<(), AllocError> {
    let mut before = None;
    let mut rest = pcrs;
    while let [pcr, others @ ..] = rest {
        push_pcr(text, before, pcr, others.first())?;
        before = Some(pcr);
        rest = others;
    }
    Ok(())
}

/// Appends a PCR that begins or ends a range, by those before and after it.
fn push_pcr(
    text: &mut String,
    before: Option<&NamedPcr>,
    named: &NamedPcr,
    after: Option<&NamedPcr>,
) -> Result<(), AllocError> {
    let pcr = named.pcr;
    if !is_next(before, named) {
        push_opening(text, before, named)?;
        return fallible_write!(text, "{pcr}");
    }
    if goes_on(named, after) {
        return Ok(());
    }
    fallible_write!(text, "-{pcr}")
}

/// Returns whether a PCR is the next one of the bank of the one before it.
fn is_next(before: Option<&NamedPcr>, named: &NamedPcr) -> bool {
    match before {
        None => false,
        Some(before) => {
            before.bank == named.bank && u64::from(named.pcr) == u64::from(before.pcr) + 1
        }
    }
}

/// Returns whether the PCR after one is the next one of its bank.
fn goes_on(named: &NamedPcr, after: Option<&NamedPcr>) -> bool {
    match after {
        None => false,
        Some(after) => is_next(Some(named), after),
    }
}

/// Appends what is before a PCR that begins a range: the name of its bank, unless the one before
/// it is of that bank.
fn push_opening(
    text: &mut String,
    before: Option<&NamedPcr>,
    named: &NamedPcr,
) -> Result<(), AllocError> {
    let bank = bank_name(named.bank);
    match before {
        None => fallible_write!(text, "{bank}: "),
        Some(before) if before.bank == named.bank => text.fallible_push_str(", "),
        Some(_) => fallible_write!(text, "; {bank}: "),
    }
}
