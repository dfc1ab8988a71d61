// @generated from proved source. It is not edited.

use crate::support::fallible::*;

use crate::uefi_audits::naming::bank_named;
use crate::uefi_audits::verify::held::{Held, HeldError, HeldPcr, Section};
use crate::uefi_audits::verify::line::{bank_in_line, pcr_in_line, tpm1_pcr_in_line, value_in};
use crate::uefi_audits::verify::splitting::split_once;
use uefi_formats::pcr::{Bank, PcrValue};
use crate::support::alloc::AllocError;

/// Returns the PCRs that a text states, as `tpm2_pcrread`, `tpm2_quote` and `tpm2_checkquote` of
/// tpm2-tools print them or as Linux has those of TPM 1.2 in its file `pcrs`, whose bank is SHA-1.
///
/// | line | what it says |
/// |---|---|
/// | `  sha256:` | the PCRs of this bank follow |
/// | `    7 : 0x1234..` | PCR 7 of that bank held this |
/// | `PCR-07: 12 34 ..` | PCR 7 of TPM 1.2 held this |
/// | `quoted: ..`, `signature:`, `  alg: ..`, `  sig: ..` | it is of a quote, and passed over |
/// | `pcrs:`, `calcDigest: ..`, `sig: ..` | the same |
///
/// A line ends with `\n` or `\r\n`, the last one too. Hex digits may be of either case. The PCRs of
/// a bank that can't be replayed are passed over, and its name is returned.
///
/// # Errors
///
/// - [`HeldError::Memory`] if an allocation fails.
/// - [`HeldError::Line`] with the offset of the first line that is none of these, states a value of
///   another length than its bank's, states a PCR that a line before it states, or doesn't end.
pub fn held_in_text<'a>(
    text: &'a [u8],
) -> Result<Held<'a>, HeldError> {
    let (pcrs, unsupported) = (Vec::new(), Vec::new());
    let mut held = Held { pcrs, unsupported };
    let mut section = Section::Before;
    let mut rest = text;
    while !rest.is_empty() {
        let offset = text.len() - rest.len();
        let Some((bytes, after)) = split_once(rest, b'\n') else {
            return Err(HeldError::Line(offset));
        };
        let line = without_return(bytes);
        let Some(next) = read_line(&mut held, section, line)? else {
            return Err(HeldError::Line(offset));
        };
        section = next;
        rest = after;
    }
    Ok(held)
}

/// Reads a line: of a bank that begins, of a PCR, which is appended unless it is of a bank that can't
/// be replayed, or of a quote. Returns the bank of the lines that follow; `None` if the line is none of
/// these.
fn read_line<'a>(
    held: &mut Held<'a>,
    section: Section,
    line: &'a [u8],
) -> Result<Option<Section>, AllocError> {
    if let Some(name) = bank_in_line(line) {
        return Ok(Some(begin_bank(held, name)?));
    }
    if is_passed_over(section, line) {
        return Ok(Some(section));
    }
    let Some(pcr) = held_in_line(section, line)? else {
        return Ok(None);
    };
    if !is_new(&pcr, held.pcrs.as_slice()) {
        return Ok(None);
    }
    held.pcrs.fallible_push(pcr)?;
    Ok(Some(section))
}

/// Returns the bank of this name, which is noted if it can't be replayed.
fn begin_bank<'a>(
    held: &mut Held<'a>,
    name: &'a str,
) -> Result<Section, AllocError> {
    match bank_named(name) {
        Some(bank) => Ok(Section::Replayed(bank)),
        None => {
            held.unsupported.fallible_push(name)?;
            Ok(Section::Unsupported)
        }
    }
}

/// Returns whether a line is of a PCR in a bank that can't be replayed, or one that a quote has beside
/// those of banks and PCRs.
fn is_passed_over(section: Section, line: &[u8]) -> bool {
    is_of_other(section, line) || is_labelled(line)
}

/// Returns whether a line is of a PCR in a bank that can't be replayed.
fn is_of_other(section: Section, line: &[u8]) -> bool {
    match section {
        Section::Unsupported => pcr_in_line(line).is_some(),
        _ => false,
    }
}

/// Returns whether a line begins as one that a quote has beside those of banks and PCRs.
fn is_labelled(line: &[u8]) -> bool {
    line.starts_with(b"quoted: ")
        || line.starts_with(b"signature:")
        || line.starts_with(b"  alg: ")
        || line.starts_with(b"  sig: ")
        || line.starts_with(b"pcrs:")
        || line.starts_with(b"calcDigest: ")
        || line.starts_with(b"sig: ")
}

/// Returns whether a PCR is none of the others.
fn is_new(held: &HeldPcr, others: &[HeldPcr]) -> bool {
    others
        .iter()
        .all(|other| held.bank != other.bank || held.pcr != other.pcr)
}

/// Returns the value of a PCR of a bank that its file in Linux's sysfs states, as in
/// `pcr-sha256/0`: hex digits and a line break.
///
/// # Errors
///
/// - [`HeldError::Memory`] if an allocation fails.
/// - [`HeldError::Line`] with 0 if the text is something else, or the value hasn't the bank's
///   length.
pub fn held_in_file(
    bank: Bank,
    text: &[u8],
) -> Result<PcrValue, HeldError> {
    match text {
        [digits @ .., b'\n'] => match value_in(bank, digits)? {
            Some(value) => Ok(value),
            None => Err(HeldError::Line(0)),
        },
        _ => Err(HeldError::Line(0)),
    }
}

/// Returns the PCR that a line states: one of the bank that began, or one of TPM 1.2. `None` if it
/// states none.
fn held_in_line(
    section: Section,
    line: &[u8],
) -> Result<Option<HeldPcr>, AllocError> {
    if let Some((pcr, digits)) = tpm1_pcr_in_line(line)? {
        return held_of(Bank::Sha1, pcr, digits.as_slice());
    }
    let Section::Replayed(bank) = section else {
        return Ok(None);
    };
    let Some((pcr, digits)) = pcr_in_line(line) else {
        return Ok(None);
    };
    held_of(bank, pcr, digits)
}

/// Returns the PCR of this bank and number whose value the digits state; `None` if they state none.
fn held_of(
    bank: Bank,
    pcr: u32,
    digits: &[u8],
) -> Result<Option<HeldPcr>, AllocError> {
    let Some(value) = value_in(bank, digits)? else {
        return Ok(None);
    };
    Ok(Some(HeldPcr { bank, pcr, value }))
}

/// Returns the bytes without the `\r` at their end, if there is one.
fn without_return(bytes: &[u8]) -> &[u8] {
    match bytes {
        [line @ .., b'\r'] => line,
        _ => bytes,
    }
}
