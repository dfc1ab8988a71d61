// @generated from proved source. It is not edited.

use core::error::Error;
use core::fmt;

/// Why bytes are no quote.
///
/// Bytes are read from the first to the last, field by field, and a field is judged once it is
/// whole: the first fault is the error.
#[non_exhaustive]
#[derive(Clone, Copy, PartialEq, Eq, Debug)]
pub enum QuoteError {
    /// The first four bytes aren't `TPM_GENERATED_VALUE`, `ff544347`. A `TPM2B_ATTEST`, which begins
    /// with its size, has this error. Fewer than four bytes are
    /// [`TooShort`](QuoteError::TooShort), whatever they are.
    NotGenerated,
    /// The type after the magic is this one, and not `TPM_ST_ATTEST_QUOTE`, `8018`: the TPM signed
    /// another structure. Only the first byte of a type is [`TooShort`](QuoteError::TooShort).
    NotQuote(u16),
    /// The byte `safe` of the clock has this value. A `TPMI_YES_NO` is 0 (`NO`) or 1 (`YES`), and a
    /// TPM refuses any other when it unmarshals one.
    Safe(u8),
    /// A bitmap of PCRs has more than four bytes, by the size before it, even if the bytes end
    /// there; or it is whole, and selects a PCR above 23.
    Selection,
    /// The bytes end within a field, or before one, and no field before it has another error.
    TooShort,
    /// Bytes follow the quote.
    LeftOver,
}

/// Writes what is wrong with the bytes, such as `an attestation of type 0x8017`.
impl fmt::Display for QuoteError {
    fn fmt(&self, f: &mut fmt::Formatter<'_>) -> fmt::Result {
        match self {
            QuoteError::NotGenerated => f.write_str("no TPM_GENERATED_VALUE"),
            QuoteError::NotQuote(kind) => write!(f, "an attestation of type 0x{kind:x}"),
            QuoteError::Safe(value) => write!(f, "the byte `safe` is {value}"),
            QuoteError::Selection => f.write_str("a selection of PCRs that a PC doesn't have"),
            QuoteError::TooShort => f.write_str("too few bytes"),
            QuoteError::LeftOver => f.write_str("bytes after the quote"),
        }
    }
}

impl Error for QuoteError {}
