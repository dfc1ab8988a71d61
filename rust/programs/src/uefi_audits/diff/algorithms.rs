// @generated from proved source. It is not edited.

use crate::support::fallible::*;

use crate::uefi_audits::algorithms::each_algorithm;
use uefi_formats::pcr::{Bank, ReadLog};
use crate::support::alloc::AllocError;
use uefi_formats::proto::tcg::AlgorithmId;

/// Returns the algorithms whose digests the events of both logs have, in the order of the old log's
/// header: a log of version 2 those of its header's table, one of version 1 SHA-1 alone. If a bank
/// is asked for, it is that of the bank alone.
///
/// # Errors
///
/// [`AllocError`] if an allocation fails.
pub fn compared_algorithms(
    old: &ReadLog<'_>,
    new: &ReadLog<'_>,
    bank: Option<Bank>,
) -> Result<Vec<AlgorithmId>, AllocError> {
    let olds = algorithms_of(old)?;
    let news = algorithms_of(new)?;
    let mut found = Vec::new();
    for number in olds.as_slice() {
        if is_compared(bank, news.as_slice(), *number) {
            found.fallible_push(AlgorithmId(*number))?;
        }
    }
    Ok(found)
}

/// Returns whether the digests of an algorithm are compared: the new log has it, and it is asked for.
fn is_compared(bank: Option<Bank>, news: &[u16], number: u16) -> bool {
    news.contains(&number) && is_asked(bank, number)
}

/// Returns whether an algorithm is asked for: it is that of the bank, or no bank is.
fn is_asked(bank: Option<Bank>, number: u16) -> bool {
    match bank {
        Some(bank) => bank.algorithm().0 == number,
        None => true,
    }
}

/// Returns the numbers of the algorithms whose digests the events of a log have.
fn algorithms_of(read: &ReadLog<'_>) -> Result<Vec<u16>, AllocError> {
    match read.header() {
        Some(header) => each_algorithm(&header.algorithm_digest_sizes()),
        None => Vec::fallible_from_slice(&[AlgorithmId::SHA1.0]),
    }
}
