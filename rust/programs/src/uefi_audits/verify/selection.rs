// @generated from proved source. It is not edited.

use crate::support::fallible::*;

use crate::uefi_audits::naming::bank_named;
use crate::uefi_audits::verify::held::HeldPcr;
use crate::uefi_audits::verify::line::two_digits;
use crate::uefi_audits::verify::splitting::split_once;
use uefi_formats::pcr::{Bank, PCR_COUNT};
use crate::support::alloc::AllocError;

/// Which PCRs are asked for, in one bank or in all.
///
/// Its text is such as `0-7,14` or `sha256:0,7`: items separated by commas, after the name of a bank
/// and a colon or without. An item is the number of a PCR in one decimal digit or two, 0 to 23, or the
/// first and the last of a range with a `-` between them.
#[derive(Clone, Copy, Debug)]
pub struct PcrSelection {
    bank: Option<Bank>,
    pcrs: [bool; PCR_COUNT],
}

/// The PCRs from one to another.
#[derive(Clone, Copy, Debug)]
struct Range {
    first: u32,
    last: u32,
}

impl PcrSelection {
    /// Returns whether a PCR of a bank is selected.
    pub fn is_selected(&self, bank: Bank, pcr: u32) -> bool {
        self.is_of(bank) && self.pcrs.get(pcr as usize).copied().unwrap_or(false)
    }

    /// Returns the one bank of which PCRs are selected, or `None` if they are in all.
    pub fn bank(&self) -> Option<Bank> {
        self.bank
    }

    /// Returns whether PCRs of a bank may be selected.
    fn is_of(&self, bank: Bank) -> bool {
        match self.bank {
            Some(only) => only == bank,
            None => true,
        }
    }
}

/// Returns the selections that a text names, in its order: those between its plus signs, such as
/// `sha1:0-7+sha256:0-7,9`. `None` if one of them is none: an item is empty or no number, is above 23,
/// or is a range that goes down, or no bank that can be replayed has the name.
///
/// # Errors
///
/// [`AllocError`] if an allocation fails.
pub fn selections_in(
    text: &[u8],
) -> Result<Option<Vec<PcrSelection>>, AllocError> {
    let mut selections = Vec::new();
    let mut rest = text;
    while let Some((part, after)) = split_once(rest, b'+') {
        let Some(selection) = selection_in(part) else {
            return Ok(None);
        };
        selections.fallible_push(selection)?;
        rest = after;
    }
    let Some(selection) = selection_in(rest) else {
        return Ok(None);
    };
    selections.fallible_push(selection)?;
    Ok(Some(selections))
}

/// Returns the selection that a text names; `None` if it names none.
fn selection_in(text: &[u8]) -> Option<PcrSelection> {
    let Some((name, items)) = split_once(text, b':') else {
        return selected(None, text);
    };
    let bank = bank_of_name(name)?;
    selected(Some(bank), items)
}

/// Returns those of these PCRs that one of the selections selects. Without selections each is.
///
/// # Errors
///
/// [`AllocError`] if an allocation fails.
pub fn selected_pcrs(
    held: &[HeldPcr],
    selections: &[PcrSelection],
) -> Result<Vec<HeldPcr>, AllocError> {
    held.iter()
        .copied()
        .filter(|pcr| selections.is_empty() || one_selects(selections, pcr))
        .fallible_collect()
}

/// Returns whether one of the selections selects a PCR that a TPM held.
fn one_selects(selections: &[PcrSelection], held: &HeldPcr) -> bool {
    selections
        .iter()
        .any(|it| it.is_selected(held.bank, held.pcr))
}

/// Returns the bank of this name; `None` if none that can be replayed has it.
fn bank_of_name(name: &[u8]) -> Option<Bank> {
    match core::str::from_utf8(name) {
        Ok(name) => bank_named(name),
        Err(_) => None,
    }
}

/// Returns the PCRs in a bank that items name; `None` if one of them is wrong.
fn selected(bank: Option<Bank>, items: &[u8]) -> Option<PcrSelection> {
    let mut pcrs = [false; PCR_COUNT];
    let mut rest = items;
    while let Some((item, after)) = split_once(rest, b',') {
        let range = range_in(item)?;
        select(&mut pcrs, &range);
        rest = after;
    }
    let range = range_in(rest)?;
    select(&mut pcrs, &range);
    Some(PcrSelection { bank, pcrs })
}

/// Selects the PCRs of a range.
fn select(pcrs: &mut [bool; PCR_COUNT], range: &Range) {
    for pcr in range.first..range.last + 1 {
        pcrs[pcr as usize] = true;
    }
}

/// Returns the range that an item names: one PCR, or those from one to another.
fn range_in(item: &[u8]) -> Option<Range> {
    let Some((first, last)) = split_once(item, b'-') else {
        let pcr = pcr_number(item)?;
        return Some(Range {
            first: pcr,
            last: pcr,
        });
    };
    let first = pcr_number(first)?;
    let last = pcr_number(last)?;
    if first > last {
        return None;
    }
    Some(Range { first, last })
}

/// Returns the number of a PCR, which is below 24.
fn pcr_number(text: &[u8]) -> Option<u32> {
    let number = number_of(text)?;
    if number as usize >= PCR_COUNT {
        return None;
    }
    Some(number)
}

/// Returns the number of one digit or two.
fn number_of(text: &[u8]) -> Option<u32> {
    match text {
        [ones] if ones.is_ascii_digit() => Some(u32::from(ones - b'0')),
        [tens, ones] => two_digits(*tens, *ones),
        _ => None,
    }
}
