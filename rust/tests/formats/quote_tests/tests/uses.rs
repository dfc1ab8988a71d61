// @generated from proved source. It is not edited.

use crate::quote_tests::tests::samples::{CERTIFY, ECC_THREE_BANKS, RSA_ONE_BANK, RSA_TWO_BANKS};
use crate::support::test::Fail;
use crate::test_support::{bytes, each_reads, same};
use crate::tpm_quote::{Quote, QuoteError};
use crate::uefi_tcg::{AlgorithmId, PcrIndex};

/// Returns whether `message` is a quote with this nonce.
fn has_nonce(message: &[u8], nonce: &[u8]) -> Result<bool, QuoteError> {
    let quote = Quote::try_from(message)?;
    Ok(quote.extra_data() == nonce)
}

#[test]
fn a_nonce_is_compared() -> Result<(), Fail> {
    let nonce = bytes("0123456789abcdef")?;
    let message = bytes(RSA_ONE_BANK)?;
    let found = has_nonce(message.as_slice(), nonce.as_slice());
    same("its own", &found, &Ok(true))?;
    let message = bytes(RSA_TWO_BANKS)?;
    let found = has_nonce(message.as_slice(), nonce.as_slice());
    same("another", &found, &Ok(false))?;
    let message = bytes(CERTIFY)?;
    let found = has_nonce(message.as_slice(), nonce.as_slice());
    same("no quote", &found, &Err(QuoteError::NotQuote(0x8017)))
}

/// Returns whether the bytes are a quote over PCR 7 of SHA-256.
fn is_over_pcr_7(message: &[u8]) -> bool {
    let Ok(quote) = Quote::try_from(message) else {
        return false;
    };
    for selection in quote.pcr_selections() {
        if selection.algorithm() == AlgorithmId::SHA256 && selection.contains(PcrIndex(7)) {
            return true;
        }
    }
    false
}

#[test]
fn a_pcr_is_sought_in_all_selections() -> Result<(), Fail> {
    let rows = [
        (RSA_ONE_BANK, true),
        (RSA_TWO_BANKS, true),
        (ECC_THREE_BANKS, false),
        (CERTIFY, false),
    ];
    each_reads(&rows, is_over_pcr_7)
}
