// @generated from proved source. It is not edited.

use crate::pcr_replay::{Bank, BankPcrs, Fault, NoQuoteDigest, Undetermined, quote_digest, replay};
use crate::support::test::Fail;
use crate::test_support::{bytes, holds, same};
use crate::tpm_quote::Quote;
use crate::uefi_tcg::{AlgorithmId, LastEntry, Log, PcrIndex};

/// A log that extends PCR 0 of SHA-1.
const SHA1_LOG: &str = "0000000008000000333333333333333333333333333333333333333300000000";

/// A log that extends the PCRs 0 and 7 of SHA-256.
pub(crate) const SHA256_LOG: &str =
    "0000000003000000000000000000000000000000000000000000000021000000 \
                          53706563204944204576656e743033000000000000020002010000000b00200000 \
                          0000000008000000010000000b001111111111111111111111111111111111111111 \
                          11111111111111111111111100000000 \
                          0700000004000000010000000b002222222222222222222222222222222222222222 \
                          22222222222222222222222200000000";

/// Returns what the PCRs of a bank hold after a log.
fn bank_pcrs(bank: Bank, log: &str) -> Result<BankPcrs, Fail> {
    let log = bytes(log)?;
    let pcrs = replay(&Log::new(log.as_slice(), LastEntry::Unknown), bank);
    Ok(BankPcrs { bank, pcrs })
}

// Quotes of a software TPM whose PCRs were extended as the logs say, by keys that hash by SHA-256.

/// PCR 0 to 7 of SHA-256, with a nonce.
const PCRS_0_TO_7: &str =
    "ff54434780180022000bde213066bcb2e45af5c1ef49eddb9df8b8141685d4d94a654f703f33f24b \
     de3600080123456789abcdef00000000000005d00000000100000000012019102300163636000000 \
     01000b03ff00000020312f22ee6b7daa0fcf66bf9e9b6c3e0d3b746c3aaa69ecf213b00cd7e68ce4 \
     46";

/// PCR 0 and 7 of SHA-256, without a nonce.
const PCRS_0_AND_7: &str =
    "ff54434780180022000bde213066bcb2e45af5c1ef49eddb9df8b8141685d4d94a654f703f33f24b \
     de3600000000000000000614000000010000000001201910230016363600000001000b0381000000 \
     20bdfd4926ecd611ee6fa67ceac3045f32b8e9c5b3b5fbebcfdbbaed1082f8ea52";

/// PCRs of SHA-1 and of SHA-256.
const TWO_BANKS: &str =
    "ff54434780180022000bde213066bcb2e45af5c1ef49eddb9df8b8141685d4d94a654f703f33f24b \
     de36002000112233445566778899aabbccddeeff00112233445566778899aabbccddeeff00000000 \
     0000064c000000010000000001201910230016363600000002000403030000000b03810481002004 \
     e23d1d664f36ce1d0b99f1ace35d8c776073518dd55f1c7ac9c8fb6163e4a7";

/// All PCRs of SHA-256.
const ALL_PCRS: &str =
    "ff54434780180022000b32536abaa9d80c180585b5fcd633c102aaa8a5914c4d2ba8e48e88dc477b \
     4fae0002cafe0000000000000680000000010000000001201910230016363600000001000b03ffff \
     ff00203a5de426b8889dc1d03fe8e43f4080b2090f3529aa4bb450a7c8c401c472318b";

/// PCR 14 of SHA-384, which nothing extended.
pub(crate) const SHA384_PCR_14: &str =
    "ff54434780180022000b32536abaa9d80c180585b5fcd633c102aaa8a5914c4d2ba8e48e88dc477b \
     4fae000000000000000006a6000000010000000001201910230016363600000001000c0300400000 \
     2017b0761f87b081d5cf10757ccc89f12be355c70e2e29df288b65b30710dcbcd1";

/// PCRs of SHA-512, SHA-1 and SHA-256.
const THREE_BANKS: &str =
    "ff54434780180022000b32536abaa9d80c180585b5fcd633c102aaa8a5914c4d2ba8e48e88dc477b \
     4fae0001ff00000000000006cc000000010000000001201910230016363600000003000d03000080 \
     000403000100000b0300020000205b517952cbe9c4c147bc3f3434f9d82409e76d09ea58905aefe7 \
     fb5415912d9a";

/// All of them.
const QUOTES: [&str; 6] = [
    PCRS_0_TO_7,
    PCRS_0_AND_7,
    TWO_BANKS,
    ALL_PCRS,
    SHA384_PCR_14,
    THREE_BANKS,
];

/// Returns what the PCRs of the banks hold after the logs; those of two banks no log extends.
fn all_banks() -> Result<[BankPcrs; 4], Fail> {
    Ok([
        bank_pcrs(Bank::Sha1, SHA1_LOG)?,
        bank_pcrs(Bank::Sha256, SHA256_LOG)?,
        bank_pcrs(Bank::Sha384, "")?,
        bank_pcrs(Bank::Sha512, "")?,
    ])
}

#[test]
fn the_digest_is_that_of_the_tpm() -> Result<(), Fail> {
    let banks = all_banks()?;
    for row in &QUOTES {
        let message = bytes(row)?;
        let quote = Quote::try_from(message.as_slice())?;
        let Ok(digest) = quote_digest(Bank::Sha256, &quote, banks.as_slice()) else {
            return holds(row, false);
        };
        same(row, &(digest.as_bytes() == quote.pcr_digest()), &true)?;
    }
    Ok(())
}

/// Returns why there is no digest of the quote of two banks.
fn why_none(banks: &[BankPcrs]) -> Result<Option<NoQuoteDigest>, Fail> {
    let message = bytes(TWO_BANKS)?;
    let quote = Quote::try_from(message.as_slice())?;
    Ok(quote_digest(Bank::Sha256, &quote, banks).err())
}

#[test]
fn a_pcr_without_a_value_is_named() -> Result<(), Fail> {
    let sha1 = bank_pcrs(Bank::Sha1, SHA1_LOG)?;
    let of_other_log = bank_pcrs(Bank::Sha1, SHA256_LOG)?;
    let at = Undetermined {
        index: 0,
        offset: 65,
        fault: Fault::NoDigest,
    };
    let undetermined = NoQuoteDigest::Undetermined(AlgorithmId::SHA1, PcrIndex(0), at);
    same(
        "no bank",
        &why_none(&[])?,
        &Some(NoQuoteDigest::NoBank(AlgorithmId::SHA1)),
    )?;
    let none = NoQuoteDigest::NoBank(AlgorithmId::SHA256);
    same("one bank", &why_none(&[sha1])?, &Some(none))?;
    same(
        "no digest",
        &why_none(&[of_other_log])?,
        &Some(undetermined),
    )
}
