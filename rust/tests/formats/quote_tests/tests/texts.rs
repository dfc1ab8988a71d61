// @generated from proved source. It is not edited.

use crate::support::alloc::AllocError;
use crate::support::test::Fail;
use crate::test_support::same_text;
use crate::tpm_quote::QuoteError;

/// Each error, and its text.
const TEXTS: [(QuoteError, &str); 6] = [
    (QuoteError::NotGenerated, "no TPM_GENERATED_VALUE"),
    (
        QuoteError::NotQuote(0x8017),
        "an attestation of type 0x8017",
    ),
    (QuoteError::Safe(2), "the byte `safe` is 2"),
    (
        QuoteError::Selection,
        "a selection of PCRs that a PC doesn't have",
    ),
    (QuoteError::TooShort, "too few bytes"),
    (QuoteError::LeftOver, "bytes after the quote"),
];

/// Returns the text of an error.
fn text(error: QuoteError) -> Result<String, AllocError> {
    fallible_format!("{error}")
}

#[test]
fn an_error_says_what_is_wrong() -> Result<(), Fail> {
    for (error, expected) in &TEXTS {
        let shown = text(*error)?;
        same_text(expected, shown.as_str(), expected)?;
    }
    Ok(())
}
