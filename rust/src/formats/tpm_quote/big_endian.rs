// @generated from proved source. It is not edited.

//! Fields of a structure of a TPM: numbers in bytes, big-endian, and bytes with their size before
//! them.
//!
//! Each function returns the field that the bytes begin with, and the bytes after it, or
//! [`TooShort`](QuoteError::TooShort) if there are too few.

use crate::formats::tpm_quote::quote_error::QuoteError;

/// Splits a number of one byte off.
#[inline]
pub(crate) fn split_u8(bytes: &[u8]) -> Result<(u8, &[u8]), QuoteError> {
    let Some((number, rest)) = bytes.split_first() else {
        return Err(QuoteError::TooShort);
    };
    Ok((*number, rest))
}

/// Splits a number of two bytes off.
#[inline]
pub(crate) fn split_u16(bytes: &[u8]) -> Result<(u16, &[u8]), QuoteError> {
    let Some((number, rest)) = bytes.split_first_chunk() else {
        return Err(QuoteError::TooShort);
    };
    Ok((u16::from_be_bytes(*number), rest))
}

/// Splits a number of four bytes off.
#[inline]
pub(crate) fn split_u32(bytes: &[u8]) -> Result<(u32, &[u8]), QuoteError> {
    let Some((number, rest)) = bytes.split_first_chunk() else {
        return Err(QuoteError::TooShort);
    };
    Ok((u32::from_be_bytes(*number), rest))
}

/// Splits a number of eight bytes off.
#[inline]
pub(crate) fn split_u64(bytes: &[u8]) -> Result<(u64, &[u8]), QuoteError> {
    let Some((number, rest)) = bytes.split_first_chunk() else {
        return Err(QuoteError::TooShort);
    };
    Ok((u64::from_be_bytes(*number), rest))
}

/// Splits this many bytes off.
#[inline]
pub(crate) fn split_bytes(bytes: &[u8], length: usize) -> Result<(&[u8], &[u8]), QuoteError> {
    let Some(split) = bytes.split_at_checked(length) else {
        return Err(QuoteError::TooShort);
    };
    Ok(split)
}

/// Splits bytes off whose size, a number of two bytes, is before them (`TPM2B_NAME`, `TPM2B_DATA`,
/// `TPM2B_DIGEST`).
#[inline]
pub(crate) fn split_sized(bytes: &[u8]) -> Result<(&[u8], &[u8]), QuoteError> {
    let (size, rest) = split_u16(bytes)?;
    split_bytes(rest, size as usize)
}
