// @generated from proved source. It is not edited.

use crate::formats::tpm_quote::big_endian::{split_bytes, split_u8, split_u16};
use crate::formats::tpm_quote::quote_error::QuoteError;
use crate::formats::tpm_quote::selected_pcrs::SelectedPcrs;
use crate::formats::uefi_tcg::{AlgorithmId, PcrIndex};

/// The most bytes that a bitmap may have.
const LONGEST_BITMAP: u8 = 4;

/// The index of the byte that has PCR 24 to 31.
const BYTE_OF_PCR_24: usize = 3;

/// The PCRs of one bank that a quote is over (TPM 2.0 Library, Part 2, `TPMS_PCR_SELECTION`).
///
/// | offset | bytes | field |
/// |---|---|---|
/// | 0 | 2 | hash algorithm of the bank, big-endian |
/// | 2 | 1 | length of the bitmap in bytes, at most 4 |
/// | 3 | that length | bitmap: PCR n is bit n % 8 of byte n / 8, and none above 23 is selected |
///
/// A view: the bitmap lives as long as the bytes that it was read from.
#[derive(Clone, Copy)]
pub struct PcrSelection<'a> {
    algorithm: AlgorithmId,
    bitmap: &'a [u8],
}

impl core::fmt::Debug for PcrSelection<'_> {
    fn fmt(&self, f: &mut core::fmt::Formatter<'_>) -> core::fmt::Result {
        f.debug_struct("PcrSelection")
            .field("algorithm", &self.algorithm)
            .field("bitmap", &crate::support::debug::Bytes(self.bitmap))
            .finish()
    }
}

impl<'a> PcrSelection<'a> {
    /// Returns the selection that the bytes begin with, and the bytes after it.
    ///
    /// # Errors
    ///
    /// - [`TooShort`](QuoteError::TooShort) if a field isn't whole.
    /// - [`Selection`](QuoteError::Selection) if the bitmap has more than four bytes, by its size,
    ///   or a PCR above 23 is selected.
    #[inline]
    pub(crate) fn split(bytes: &'a [u8]) -> Result<(PcrSelection<'a>, &'a [u8]), QuoteError> {
        let (algorithm, rest) = split_u16(bytes)?;
        let (bitmap, rest) = split_bitmap(rest)?;
        let algorithm = AlgorithmId(algorithm);
        Ok((PcrSelection { algorithm, bitmap }, rest))
    }

    /// Returns the hash algorithm of the bank.
    #[must_use]
    #[inline]
    pub fn algorithm(&self) -> AlgorithmId {
        self.algorithm
    }

    /// Returns the bitmap: PCR n is bit n % 8 of byte n / 8.
    #[must_use]
    #[inline]
    pub fn bitmap(&self) -> &'a [u8] {
        self.bitmap
    }

    /// Returns whether the PCR is selected: no, if the bitmap ends before it.
    #[must_use]
    #[inline]
    pub fn contains(&self, pcr: PcrIndex) -> bool {
        let byte = byte_at(self.bitmap, (pcr.0 / 8) as usize);
        (byte >> (pcr.0 % 8)) & 1 == 1
    }

    /// Returns an iterator over the PCRs that are selected, ascending.
    #[must_use]
    #[inline]
    pub fn pcrs(&self) -> SelectedPcrs<'a> {
        SelectedPcrs::new(*self)
    }
}

/// Splits a bitmap off whose size, a number of one byte, is before it.
///
/// # Errors
///
/// - [`Selection`](QuoteError::Selection) if the size is above 4, or a PCR above 23 is selected: the
///   fourth byte has PCR 24 to 31.
/// - [`TooShort`](QuoteError::TooShort) if the size is missing, or a byte of the bitmap.
#[inline]
fn split_bitmap(bytes: &[u8]) -> Result<(&[u8], &[u8]), QuoteError> {
    let (size, rest) = split_u8(bytes)?;
    if size > LONGEST_BITMAP {
        return Err(QuoteError::Selection);
    }
    let (bitmap, rest) = split_bytes(rest, size as usize)?;
    if byte_at(bitmap, BYTE_OF_PCR_24) > 0 {
        return Err(QuoteError::Selection);
    }
    Ok((bitmap, rest))
}

/// Returns the byte at the index, or 0 if the bytes end before it.
#[inline]
fn byte_at(bytes: &[u8], index: usize) -> u8 {
    match bytes.get(index) {
        Some(byte) => *byte,
        None => 0,
    }
}
