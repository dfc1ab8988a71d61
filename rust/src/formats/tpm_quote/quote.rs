// @generated from proved source. It is not edited.

use crate::formats::tpm_quote::big_endian::{split_sized, split_u16, split_u32, split_u64};
use crate::formats::tpm_quote::clock_info::ClockInfo;
use crate::formats::tpm_quote::pcr_selection_iter::PcrSelectionIter;
use crate::formats::tpm_quote::quote_error::QuoteError;

/// What a structure begins with that a TPM made (`TPM_GENERATED_VALUE`).
const GENERATED_VALUE: u32 = 0xff54_4347;

/// The type of a quote (`TPM_ST_ATTEST_QUOTE`).
const ATTEST_QUOTE: u16 = 0x8018;

/// What a TPM signs when it quotes PCRs (TPM 2.0 Library, Part 2, `TPMS_ATTEST` with
/// `TPMS_QUOTE_INFO`). All numbers are big-endian.
///
/// | bytes | field |
/// |---|---|
/// | 4 | magic, `TPM_GENERATED_VALUE`: `ff544347` |
/// | 2 | type, `TPM_ST_ATTEST_QUOTE`: `8018` |
/// | 2, and that many | qualified name of the key that signs (`TPM2B_NAME`) |
/// | 2, and that many | extra data: the nonce (`TPM2B_DATA`) |
/// | 17 | clock ([`ClockInfo`]) |
/// | 8 | firmware version |
/// | 4 | number of selections |
/// | 3 and more each | selections ([`PcrSelection`](crate::formats::tpm_quote::PcrSelection)) |
/// | 2, and that many | digest of the selected PCRs (`TPM2B_DIGEST`) |
///
/// A view: it borrows the bytes that it was read from, and what it returns lives as long as they do.
#[derive(Clone, Copy)]
pub struct Quote<'a> {
    qualified_signer: &'a [u8],
    extra_data: &'a [u8],
    clock_info: ClockInfo,
    firmware_version: u64,
    pcr_selections: PcrSelectionIter<'a>,
    pcr_digest: &'a [u8],
}

impl core::fmt::Debug for Quote<'_> {
    fn fmt(&self, f: &mut core::fmt::Formatter<'_>) -> core::fmt::Result {
        f.debug_struct("Quote")
            .field("qualified_signer", &crate::support::debug::Bytes(self.qualified_signer))
            .field("extra_data", &crate::support::debug::Bytes(self.extra_data))
            .field("clock_info", &self.clock_info)
            .field("firmware_version", &self.firmware_version)
            .field("pcr_selections", &self.pcr_selections)
            .field("pcr_digest", &crate::support::debug::Bytes(self.pcr_digest))
            .finish()
    }
}

impl<'a> Quote<'a> {
    /// Returns the quote that the bytes are, or their first fault.
    #[inline]
    fn read(bytes: &'a [u8]) -> Result<Quote<'a>, QuoteError> {
        let rest = after_header(bytes)?;
        let (qualified_signer, rest) = split_sized(rest)?;
        let (extra_data, rest) = split_sized(rest)?;
        let (clock_info, rest) = ClockInfo::split(rest)?;
        let (firmware_version, rest) = split_u64(rest)?;
        let (pcr_selections, rest) = PcrSelectionIter::split(rest)?;
        let (pcr_digest, rest) = split_sized(rest)?;
        if !rest.is_empty() {
            return Err(QuoteError::LeftOver);
        }
        Ok(Quote {
            qualified_signer,
            extra_data,
            clock_info,
            firmware_version,
            pcr_selections,
            pcr_digest,
        })
    }

    /// Returns the qualified name of the key that signs (`TPM2B_NAME`), without its size.
    #[must_use]
    #[inline]
    pub fn qualified_signer(&self) -> &'a [u8] {
        self.qualified_signer
    }

    /// Returns the data that the caller of the TPM gave, without their size: the nonce.
    #[must_use]
    #[inline]
    pub fn extra_data(&self) -> &'a [u8] {
        self.extra_data
    }

    /// Returns the clock of the TPM.
    #[must_use]
    #[inline]
    pub fn clock_info(&self) -> ClockInfo {
        self.clock_info
    }

    /// Returns the version of the TPM's firmware. What the number means is the vendor's choice.
    #[must_use]
    #[inline]
    pub fn firmware_version(&self) -> u64 {
        self.firmware_version
    }

    /// Returns an iterator over the selections, in the quote's order. A bank may be in none, or in
    /// several.
    #[must_use]
    #[inline]
    pub fn pcr_selections(&self) -> PcrSelectionIter<'a> {
        self.pcr_selections
    }

    /// Returns the digest of the values of the selected PCRs, without its size. The hash algorithm
    /// is that of the key's signature.
    #[must_use]
    #[inline]
    pub fn pcr_digest(&self) -> &'a [u8] {
        self.pcr_digest
    }
}

/// Reads the quote that the bytes are, whole and alone.
///
/// # Errors
///
/// Fails exactly if the bytes are no quote, with their first fault: bytes are read from the first
/// to the last, field by field, and a field is judged once it is whole.
///
/// - [`NotGenerated`](QuoteError::NotGenerated) if the first four bytes aren't the magic.
/// - [`NotQuote`](QuoteError::NotQuote) if the type after the magic isn't that of a quote.
/// - [`Safe`](QuoteError::Safe) if the last byte of the clock is neither 0 nor 1.
/// - [`Selection`](QuoteError::Selection) if a bitmap has more than four bytes, by the size before
///   it, or a PCR above 23 is selected.
/// - [`TooShort`](QuoteError::TooShort) if the bytes end within a field or before one.
/// - [`LeftOver`](QuoteError::LeftOver) if bytes follow the quote.
impl<'a> TryFrom<&'a [u8]> for Quote<'a> {
    type Error = QuoteError;

    #[inline]
    fn try_from(bytes: &'a [u8]) -> Result<Quote<'a>, QuoteError> {
        Quote::read(bytes)
    }
}

/// Returns the bytes after the magic and the type.
///
/// # Errors
///
/// - [`TooShort`](QuoteError::TooShort) if one of the two isn't whole.
/// - [`NotGenerated`](QuoteError::NotGenerated), [`NotQuote`](QuoteError::NotQuote) if it is
///   another than a quote's.
#[inline]
fn after_header(bytes: &[u8]) -> Result<&[u8], QuoteError> {
    let (magic, rest) = split_u32(bytes)?;
    if magic != GENERATED_VALUE {
        return Err(QuoteError::NotGenerated);
    }
    let (kind, rest) = split_u16(rest)?;
    if kind != ATTEST_QUOTE {
        return Err(QuoteError::NotQuote(kind));
    }
    Ok(rest)
}
