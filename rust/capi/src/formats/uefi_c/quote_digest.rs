// @generated from proved source. It is not edited.

use core::mem::MaybeUninit;
use crate::bytes::{Bytes, workspace_in};

use crate::formats::uefi_c::last_entry::log_of;
use crate::formats::uefi_c::quote::status_of;
use crate::formats::uefi_c::replay::{ROOM, start_of, status_of as fault_status};
use crate::formats::uefi_c::status::{self, UefiStatus};
use crate::formats::uefi_c::workspace::{BANK_COUNT, UefiWorkspace};
use crate::formats::pcr_replay::{
    Bank, NoQuoteDigest, PcrValue, Start, is_active, is_quoted, quote_digest_in, replay_into,
};
use crate::formats::tpm_quote::Quote;
use crate::formats::uefi_tcg::{AlgorithmId, Log};

/// The algorithm that says that the length of the quote's digest tells the hash function.
const OF_SIZE: u16 = 0;

/// The digest of the PCRs that a log leads to, or why there is none: of the first selected PCR that
/// has no value.
#[derive(Clone, Copy, Debug)]
#[repr(C)]
pub struct UefiQuoteDigest {
    /// The length of the digest in bytes; without meaning if there is none.
    pub size: usize,
    /// The index of the event in the log by which the PCR is undetermined; without meaning with
    /// another status.
    pub index: usize,
    /// The offset at which that event starts.
    pub offset: usize,
    /// Success with a digest, else why there is none.
    pub status: UefiStatus,
    /// The PCR; without meaning if its bank is missing.
    pub pcr_index: u32,
    /// The algorithm of its bank; without meaning with a digest.
    pub algorithm: u16,
    /// The digest, in the first bytes.
    pub value: [u8; ROOM],
}

/// Computes the digest of the PCRs that a log leads to: over the PCRs that the quote selects, in its
/// order. It returns its status.
///
/// The hash function is that of an algorithm's number, or for 0 that of the digest's length. Without
/// one, or without a quote, nothing is written, and the call returns why.
#[unsafe(no_mangle)]
pub extern "C" fn uefi_quote_digest(
    message: Bytes<'_>,
    hash: u16,
    log: Bytes<'_>,
    last_entry: usize,
    locality: u32,
    workspace: &mut MaybeUninit<UefiWorkspace>,
    out: &mut MaybeUninit<UefiQuoteDigest>,
) -> UefiStatus {
    let message = message.as_slice();
    let log = log.as_slice();
    let workspace = workspace_in(workspace);
    let quote = match Quote::try_from(message) {
        Ok(quote) => quote,
        Err(error) => return status_of(&error),
    };
    let Some(hash) = hash_of(hash, &quote) else {
        return status::NO_HASH;
    };
    let log = log_of(log, last_entry);
    let start = start_of(&log, locality);
    let found = seen(&digest_of(hash, &quote, &log, &start, workspace));
    out.write(found);
    found.status
}

/// Returns the hash function of a quote's digest.
#[inline]
fn hash_of(algorithm: u16, quote: &Quote<'_>) -> Option<Bank> {
    if algorithm == OF_SIZE {
        return Bank::of_size(quote.pcr_digest().len());
    }
    Bank::of(AlgorithmId(algorithm))
}

/// Returns the digest of the PCRs that a log leads to in a TPM that started so.
#[inline]
fn digest_of(
    hash: Bank,
    quote: &Quote<'_>,
    log: &Log<'_>,
    start: &Start,
    workspace: &mut UefiWorkspace,
) -> Result<PcrValue, NoQuoteDigest> {
    let mut count = 0;
    for index in 0..BANK_COUNT {
        let bank = Bank::ALL[index];
        if is_compared(quote, log, bank) {
            replay_into(&mut workspace.banks[count], log, bank, start);
            count += 1;
        }
    }
    quote_digest_in(hash, quote, &workspace.banks[..count])
}

/// Returns whether a bank has a selection in a quote and is active in a log.
#[inline]
fn is_compared(quote: &Quote<'_>, log: &Log<'_>, bank: Bank) -> bool {
    is_quoted(quote, bank) && is_active(log, bank)
}

/// Returns a digest, or why there is none.
#[inline]
fn seen(digest: &Result<PcrValue, NoQuoteDigest>) -> UefiQuoteDigest {
    let mut value = [0; ROOM];
    let none = UefiQuoteDigest {
        size: 0,
        index: 0,
        offset: 0,
        status: status::OK,
        pcr_index: 0,
        algorithm: 0,
        value,
    };
    match digest {
        Ok(found) => {
            let bytes = found.as_bytes();
            value[..bytes.len()].copy_from_slice(bytes);
            UefiQuoteDigest {
                size: bytes.len(),
                value,
                ..none
            }
        }
        Err(NoQuoteDigest::NoBank(algorithm)) => UefiQuoteDigest {
            status: status::NO_BANK,
            algorithm: algorithm.0,
            ..none
        },
        Err(NoQuoteDigest::Undetermined(algorithm, pcr, at)) => UefiQuoteDigest {
            index: at.index,
            offset: at.offset,
            status: fault_status(at.fault),
            pcr_index: pcr.0,
            algorithm: algorithm.0,
            ..none
        },
    }
}
