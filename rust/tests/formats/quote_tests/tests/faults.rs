// @generated from proved source. It is not edited.

use crate::quote_tests::tests::samples::{
    BEFORE_SAFE, CERTIFY, DIGEST, GETTIME, RSA_NO_NONCE, RSA_TWO_BANKS, SAFE,
};
use crate::support::test::Fail;
use crate::test_support::{bytes, each_reads, joined_bytes, same};
use crate::tpm_quote::{Quote, QuoteError};

/// Returns the fault of the bytes.
fn fault(input: &[u8]) -> Option<QuoteError> {
    Quote::try_from(input).err()
}

#[test]
fn the_magic_and_the_type_come_first() -> Result<(), Fail> {
    let rows = [
        ("", Some(QuoteError::TooShort)),
        ("00", Some(QuoteError::TooShort)),
        ("ff5443", Some(QuoteError::TooShort)),
        ("ff544347", Some(QuoteError::TooShort)),
        ("ff544347 00", Some(QuoteError::TooShort)),
        ("ff544347 8018", Some(QuoteError::TooShort)),
        ("ff544348", Some(QuoteError::NotGenerated)),
        // The magic with its low byte first, and the size of a `TPM2B_ATTEST` in front.
        ("474354ff 8018", Some(QuoteError::NotGenerated)),
        ("0071 ff544347 8018", Some(QuoteError::NotGenerated)),
        ("ff544347 8017", Some(QuoteError::NotQuote(0x8017))),
        ("ff544347 1880", Some(QuoteError::NotQuote(0x1880))),
        (CERTIFY, Some(QuoteError::NotQuote(0x8017))),
        (GETTIME, Some(QuoteError::NotQuote(0x8019))),
    ];
    each_reads(&rows, fault)
}

#[test]
fn a_cut_quote_is_too_short() -> Result<(), Fail> {
    let whole = bytes(RSA_TWO_BANKS)?;
    same("whole", &fault(whole.as_slice()), &None)?;
    for length in 0..whole.len() {
        let (cut, _) = whole.as_slice().split_at(length);
        same("cut", &fault(cut), &Some(QuoteError::TooShort))?;
    }
    Ok(())
}

#[test]
fn bytes_after_a_quote_are_left_over() -> Result<(), Fail> {
    let more = joined_bytes(&[RSA_NO_NONCE, "00"])?;
    same("one", &fault(more.as_slice()), &Some(QuoteError::LeftOver))?;
    let twice = joined_bytes(&[RSA_NO_NONCE, RSA_NO_NONCE])?;
    same(
        "twice",
        &fault(twice.as_slice()),
        &Some(QuoteError::LeftOver),
    )
}

/// The bytes from `safe` on, and the fault of the quote that they end.
const ENDS: [([&str; 2], Option<QuoteError>); 16] = [
    (["00 2019102300163636 00000000", DIGEST], None),
    (["01 2019102300163636 00000000", "0000"], None),
    (["02", ""], Some(QuoteError::Safe(2))),
    // The first fault decides.
    (
        ["ff 2019102300163636 00000001 000b 05", DIGEST],
        Some(QuoteError::Safe(0xff)),
    ),
    // Four bytes of a bitmap are the most, and five are too many by their size alone.
    ([SAFE, "00000001 000b 05"], Some(QuoteError::Selection)),
    ([SAFE, "00000001 000b ff"], Some(QuoteError::Selection)),
    (
        [SAFE, "00000001 000b 05 8100000000 0000"],
        Some(QuoteError::Selection),
    ),
    // PCR 24 and PCR 31, also before bytes that would be too many.
    (
        [SAFE, "00000001 000b 04 00000001 0000"],
        Some(QuoteError::Selection),
    ),
    (
        [SAFE, "00000001 000b 04 00000080 0000 00"],
        Some(QuoteError::Selection),
    ),
    // A bitmap is judged once it is whole.
    (
        [SAFE, "00000001 000b 04 000000"],
        Some(QuoteError::TooShort),
    ),
    (
        [SAFE, "00000002 000b 03 810000 0004 04 00000001"],
        Some(QuoteError::Selection),
    ),
    // More selections are stated than there are bytes.
    ([SAFE, "ffffffff"], Some(QuoteError::TooShort)),
    (
        [SAFE, "ffffffff 000b 03 810000 0004 00"],
        Some(QuoteError::TooShort),
    ),
    // A digest of another size.
    ([SAFE, "00000000 0001"], Some(QuoteError::TooShort)),
    ([SAFE, "00000000 0001 aa"], None),
    ([SAFE, "00000000 0001 aabb"], Some(QuoteError::LeftOver)),
];

#[test]
fn the_first_fault_decides() -> Result<(), Fail> {
    for ([first, second], expected) in &ENDS {
        let input = joined_bytes(&[BEFORE_SAFE, first, second])?;
        same(second, &fault(input.as_slice()), expected)?;
    }
    Ok(())
}
