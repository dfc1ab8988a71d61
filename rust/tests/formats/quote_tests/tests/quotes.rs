// @generated from proved source. It is not edited.

use crate::quote_tests::tests::samples::{
    ECC_NO_NONCE, ECC_ONE_BANK, ECC_THREE_BANKS, RSA_NO_NONCE, RSA_ONE_BANK, RSA_TWO_BANKS,
};
use crate::support::test::Fail;
use crate::test_support::{bytes, same, same_bytes};
use crate::tpm_quote::{ClockInfo, PcrSelection, PcrSelectionIter, Quote};
use crate::uefi_tcg::{AlgorithmId, PcrIndex};

/// A bank, and the PCRs of it that a quote is over.
type Bank = (AlgorithmId, &'static [u32]);

/// A quote, and what `tpm2_print -t TPMS_ATTEST` shows of it.
#[derive(Debug)]
struct Row {
    /// Its bytes.
    message: &'static str,
    /// The qualified name of the key that signs.
    signer: &'static str,
    /// The nonce.
    nonce: &'static str,
    /// The clock in milliseconds.
    clock: u64,
    /// The selections, in order.
    banks: &'static [Bank],
    /// The digest of the PCRs.
    digest: &'static str,
}

/// The qualified names of the two keys.
const RSA_KEY: &str = "000bde213066bcb2e45af5c1ef49eddb9df8b8141685d4d94a654f703f33f24bde36";

const ECC_KEY: &str = "000b32536abaa9d80c180585b5fcd633c102aaa8a5914c4d2ba8e48e88dc477b4fae";

/// The version of the software TPM's firmware: the dates that `tpm2_getcap properties-fixed` shows.
const FIRMWARE_VERSION: u64 = 0x2019_1023_0016_3636;

const ROWS: [Row; 6] = [
    Row {
        message: RSA_ONE_BANK,
        signer: RSA_KEY,
        nonce: "0123456789abcdef",
        clock: 1488,
        banks: &[(AlgorithmId::SHA256, &[0, 1, 2, 3, 4, 5, 6, 7])],
        digest: "312f22ee6b7daa0fcf66bf9e9b6c3e0d3b746c3aaa69ecf213b00cd7e68ce446",
    },
    Row {
        message: RSA_NO_NONCE,
        signer: RSA_KEY,
        nonce: "",
        clock: 1556,
        banks: &[(AlgorithmId::SHA256, &[0, 7])],
        digest: "bdfd4926ecd611ee6fa67ceac3045f32b8e9c5b3b5fbebcfdbbaed1082f8ea52",
    },
    Row {
        message: RSA_TWO_BANKS,
        signer: RSA_KEY,
        nonce: "00112233445566778899aabbccddeeff00112233445566778899aabbccddeeff",
        clock: 1612,
        banks: &[
            (AlgorithmId::SHA1, &[0, 1]),
            (AlgorithmId::SHA256, &[0, 7, 10, 16, 23]),
        ],
        digest: "04e23d1d664f36ce1d0b99f1ace35d8c776073518dd55f1c7ac9c8fb6163e4a7",
    },
    Row {
        message: ECC_ONE_BANK,
        signer: ECC_KEY,
        nonce: "cafe",
        clock: 1664,
        banks: &[(
            AlgorithmId::SHA256,
            &[
                0, 1, 2, 3, 4, 5, 6, 7, 8, 9, 10, 11, 12, 13, 14, 15, 16, 17, 18, 19, 20, 21, 22,
                23,
            ],
        )],
        digest: "3a5de426b8889dc1d03fe8e43f4080b2090f3529aa4bb450a7c8c401c472318b",
    },
    Row {
        message: ECC_NO_NONCE,
        signer: ECC_KEY,
        nonce: "",
        clock: 1702,
        banks: &[(AlgorithmId::SHA384, &[14])],
        digest: "17b0761f87b081d5cf10757ccc89f12be355c70e2e29df288b65b30710dcbcd1",
    },
    Row {
        message: ECC_THREE_BANKS,
        signer: ECC_KEY,
        nonce: "ff",
        clock: 1740,
        banks: &[
            (AlgorithmId::SHA512, &[23]),
            (AlgorithmId::SHA1, &[8]),
            (AlgorithmId::SHA256, &[9]),
        ],
        digest: "5b517952cbe9c4c147bc3f3434f9d82409e76d09ea58905aefe7fb5415912d9a",
    },
];

/// Checks the PCRs of a selection.
fn check_pcrs(row: &str, selection: &PcrSelection<'_>, expected: &[u32]) -> Result<(), Fail> {
    let mut pcrs = selection.pcrs();
    for pcr in expected {
        same(row, &pcrs.next(), &Some(PcrIndex(*pcr)))?;
    }
    same(row, &(pcrs.next(), pcrs.next()), &(None, None))
}

/// Checks the selections of a quote.
fn check_banks(row: &str, selections: PcrSelectionIter<'_>, banks: &[Bank]) -> Result<(), Fail> {
    let mut left = selections;
    same(row, &left.len(), &banks.len())?;
    for (algorithm, pcrs) in banks {
        let selection = left.next().ok_or("a selection")?;
        same(row, &selection.algorithm(), algorithm)?;
        check_pcrs(row, &selection, pcrs)?;
    }
    same(row, &(left.next().is_some(), left.len()), &(false, 0))
}

/// Checks the fields of a quote.
fn check(row: &Row) -> Result<(), Fail> {
    let message = bytes(row.message)?;
    let quote = Quote::try_from(message.as_slice())?;
    let signer = bytes(row.signer)?;
    same_bytes(row.message, quote.qualified_signer(), signer.as_slice())?;
    let nonce = bytes(row.nonce)?;
    same_bytes(row.message, quote.extra_data(), nonce.as_slice())?;
    let clock_info = ClockInfo {
        clock: row.clock,
        reset_count: 1,
        restart_count: 0,
        safe: true,
    };
    same(row.message, &quote.clock_info(), &clock_info)?;
    same(row.message, &quote.firmware_version(), &FIRMWARE_VERSION)?;
    check_banks(row.message, quote.pcr_selections(), row.banks)?;
    let digest = bytes(row.digest)?;
    same_bytes(row.message, quote.pcr_digest(), digest.as_slice())
}

#[test]
fn a_quote_says_what_the_tpm_signed() -> Result<(), Fail> {
    for row in &ROWS {
        check(row)?;
    }
    Ok(())
}
