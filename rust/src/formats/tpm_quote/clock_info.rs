// @generated from proved source. It is not edited.

use crate::formats::tpm_quote::big_endian::{split_u8, split_u32, split_u64};
use crate::formats::tpm_quote::quote_error::QuoteError;

/// The byte of a `TPMI_YES_NO` that is yes. The byte 0 is no, and no other is allowed.
const YES: u8 = 1;

/// The clock of a TPM when it signed (TPM 2.0 Library, Part 2, `TPMS_CLOCK_INFO`).
///
/// | offset | bytes | field |
/// |---|---|---|
/// | 0 | 8 | clock in milliseconds, big-endian |
/// | 8 | 4 | count of resets, big-endian |
/// | 12 | 4 | count of restarts, big-endian |
/// | 16 | 1 | safe (`TPMI_YES_NO`): 0 is no, 1 is yes, and no other value is allowed |
#[derive(Clone, Copy, PartialEq, Eq, Debug)]
pub struct ClockInfo {
    /// The milliseconds that the clock counted. It counts while the TPM is powered.
    pub clock: u64,
    /// How often the TPM was reset since it was last cleared.
    pub reset_count: u32,
    /// How often the TPM was restarted or resumed since it was last reset or cleared.
    pub restart_count: u32,
    /// Whether the TPM never reported a greater value of the clock.
    pub safe: bool,
}

impl ClockInfo {
    /// Returns the clock that the bytes begin with, and the bytes after it.
    ///
    /// # Errors
    ///
    /// - [`TooShort`](QuoteError::TooShort) if a field isn't whole.
    /// - [`Safe`](QuoteError::Safe) if the last byte is neither 0 nor 1.
    #[inline]
    pub(crate) fn split(bytes: &[u8]) -> Result<(ClockInfo, &[u8]), QuoteError> {
        let (clock, rest) = split_u64(bytes)?;
        let (reset_count, rest) = split_u32(rest)?;
        let (restart_count, rest) = split_u32(rest)?;
        let (safe, rest) = split_yes_no(rest)?;
        let clock_info = ClockInfo {
            clock,
            reset_count,
            restart_count,
            safe,
        };
        Ok((clock_info, rest))
    }
}

/// Splits a `TPMI_YES_NO` off: whether it is yes.
///
/// # Errors
///
/// - [`TooShort`](QuoteError::TooShort) if there is no byte.
/// - [`Safe`](QuoteError::Safe) if it is neither 0 nor 1.
#[inline]
fn split_yes_no(bytes: &[u8]) -> Result<(bool, &[u8]), QuoteError> {
    let (byte, rest) = split_u8(bytes)?;
    if byte > YES {
        return Err(QuoteError::Safe(byte));
    }
    Ok((byte == YES, rest))
}
