// @generated from proved source. It is not edited.

use crate::formats::pcr_replay::bank::Bank;
use crate::formats::pcr_replay::bank_pcrs::BankPcrs;
use crate::formats::pcr_replay::bank_store::BankStore;
use crate::formats::pcr_replay::fault::Undetermined;
use crate::formats::pcr_replay::hasher::Hasher;
use crate::formats::pcr_replay::value::PcrValue;
use core::error::Error;
use core::fmt;
use crate::formats::tpm_quote::{PcrSelection, Quote};
use crate::formats::uefi_tcg::{AlgorithmId, PcrIndex};

/// Why a log leads to no digest that a quote could have.
#[non_exhaustive]
#[derive(Clone, Copy, PartialEq, Eq, Debug)]
pub enum NoQuoteDigest {
    /// A PCR is selected of this algorithm's bank, which isn't among the banks.
    NoBank(AlgorithmId),
    /// A PCR is selected that is undetermined.
    Undetermined(AlgorithmId, PcrIndex, Undetermined),
}

/// Writes why, such as `no bank of algorithm 0xb`.
impl fmt::Display for NoQuoteDigest {
    fn fmt(&self, f: &mut fmt::Formatter<'_>) -> fmt::Result {
        match self {
            NoQuoteDigest::NoBank(algorithm) => {
                write!(f, "no bank of algorithm 0x{:x}", algorithm.0)
            }
            NoQuoteDigest::Undetermined(algorithm, pcr, at) => {
                let (pcr, algorithm) = (pcr.0, algorithm.0);
                write!(
                    f,
                    "PCR {pcr} of algorithm 0x{algorithm:x} is undetermined: {at}"
                )
            }
        }
    }
}

impl Error for NoQuoteDigest {}

/// Returns the digest that a TPM whose PCRs hold this puts into a quote (TPM 2.0 Library, Part 2,
/// `TPMS_QUOTE_INFO`): the hash of the values of the selected PCRs, in the quote's order, and those
/// of a selection ascending. Of a quote that selects no PCR it is the hash of nothing, whatever the
/// PCRs hold.
///
/// # Errors
///
/// The first selected PCR that has no value decides.
///
/// - [`NoBank`](NoQuoteDigest::NoBank) if its bank isn't among these.
/// - [`Undetermined`](NoQuoteDigest::Undetermined) if it is undetermined.
#[inline]
pub fn quote_digest(
    hash: Bank,
    quote: &Quote<'_>,
    banks: &[BankPcrs],
) -> Result<PcrValue, NoQuoteDigest> {
    quote_digest_in(hash, quote, banks)
}

/// Returns that digest, of PCRs that are kept in any memory.
///
/// # Errors
///
/// As [`quote_digest`].
#[inline]
pub(crate) fn quote_digest_in<B: BankStore>(
    hash: Bank,
    quote: &Quote<'_>,
    banks: &[B],
) -> Result<PcrValue, NoQuoteDigest> {
    let mut hasher = Hasher::new(hash);
    for selection in quote.pcr_selections() {
        take_selection(&mut hasher, &selection, banks)?;
    }
    Ok(hasher.finalize())
}

/// Returns whether a bank has a selection in a quote, which may select no PCR. That a quote covers the
/// PCRs that matter, in a bank that firmware extends, and that it has the nonce that it was asked for
/// with, is the caller's to ask: a digest that agrees says nothing of either.
#[must_use]
#[inline]
pub fn is_quoted(quote: &Quote<'_>, bank: Bank) -> bool {
    quote
        .pcr_selections()
        .any(|selection| selection.algorithm() == bank.algorithm())
}

/// Hashes the values of the selected PCRs of a bank, ascending.
///
/// # Errors
///
/// As [`quote_digest`].
#[inline]
fn take_selection<B: BankStore>(
    hasher: &mut Hasher,
    selection: &PcrSelection<'_>,
    banks: &[B],
) -> Result<(), NoQuoteDigest> {
    let algorithm = selection.algorithm();
    for pcr in selection.pcrs() {
        let value = quoted_value(banks, algorithm, pcr)?;
        hasher.update(value.as_bytes());
    }
    Ok(())
}

/// Returns the value of a PCR of an algorithm's bank.
///
/// # Errors
///
/// As [`quote_digest`].
#[inline]
fn quoted_value<B: BankStore>(
    banks: &[B],
    algorithm: AlgorithmId,
    pcr: PcrIndex,
) -> Result<PcrValue, NoQuoteDigest> {
    match outcome_in(banks, algorithm, pcr) {
        Some(Ok(value)) => Ok(value),
        Some(Err(at)) => Err(NoQuoteDigest::Undetermined(algorithm, pcr, at)),
        None => Err(NoQuoteDigest::NoBank(algorithm)),
    }
}

/// Returns what a PCR of an algorithm's bank holds; `None` if the bank isn't among these, or has no
/// such PCR.
#[inline]
fn outcome_in<B: BankStore>(
    banks: &[B],
    algorithm: AlgorithmId,
    pcr: PcrIndex,
) -> Option<Result<PcrValue, Undetermined>> {
    for found in banks {
        if found.bank().algorithm() == algorithm {
            return found.outcome(pcr);
        }
    }
    None
}
