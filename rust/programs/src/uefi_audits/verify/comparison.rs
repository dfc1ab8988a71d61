// @generated from proved source. It is not edited.

use crate::uefi_audits::verify::held::HeldPcr;
use uefi_formats::pcr::{Bank, BankPcrs, PcrValue, Pcrs, Undetermined};
use uefi_formats::proto::tcg::PcrIndex;

/// Returns how many PCRs don't hold what a log leads to.
pub(crate) fn disagreeing(held: &[HeldPcr], replays: &[BankPcrs]) -> usize {
    held.iter().filter(|pcr| !agrees(pcr, replays)).count()
}

/// Returns whether a PCR holds another value than the log leads to, or there is no such PCR.
pub(crate) fn differs(held: &HeldPcr, replays: &[BankPcrs]) -> bool {
    !agrees(held, replays) && !is_undetermined(held, replays)
}

/// Returns whether a PCR holds what the log leads to.
pub fn agrees(held: &HeldPcr, replays: &[BankPcrs]) -> bool {
    match led_to(held, replays) {
        Some(Ok(value)) => value.as_bytes() == held.value.as_bytes(),
        _ => false,
    }
}

/// Returns whether a PCR is undetermined after the log.
pub(crate) fn is_undetermined(held: &HeldPcr, replays: &[BankPcrs]) -> bool {
    matches!(led_to(held, replays), Some(Err(_)))
}

/// Returns what the log leads to in a PCR that a TPM held; `None` if it isn't among those that were
/// replayed.
pub fn led_to<'a>(
    held: &HeldPcr,
    replays: &'a [BankPcrs],
) -> Option<&'a Result<PcrValue, Undetermined>> {
    pcrs_of(held.bank, replays)?.outcome(PcrIndex(held.pcr))
}

/// Returns the PCRs of a bank.
fn pcrs_of(bank: Bank, replays: &[BankPcrs]) -> Option<&Pcrs> {
    for found in replays {
        if found.bank == bank {
            return Some(&found.pcrs);
        }
    }
    None
}
