// @generated from proved source. It is not edited.

//! What a software TPM signed (swtpm, tpm2-tools): `tpm2_quote`, `tpm2_certify`, `tpm2_gettime`.

/// A quote of the PCRs 0 to 7 of SHA-256, with a nonce of eight bytes, by an RSA key.
pub(crate) const RSA_ONE_BANK: &str = "ff544347 8018 0022 \
        000bde213066bcb2e45af5c1ef49eddb9df8b8141685d4d94a654f703f33f24bde36 0008 \
        0123456789abcdef 00000000000005d0 00000001 00000000 01 2019102300163636 00000001 \
        000b 03 ff0000 0020 312f22ee6b7daa0fcf66bf9e9b6c3e0d3b746c3aaa69ecf213b00cd7e68ce446";

/// A quote of the PCRs 0 and 7 of SHA-256, without a nonce, by the same key.
pub(crate) const RSA_NO_NONCE: &str = "ff544347 8018 0022 \
        000bde213066bcb2e45af5c1ef49eddb9df8b8141685d4d94a654f703f33f24bde36 0000 \
        0000000000000614 00000001 00000000 01 2019102300163636 00000001 000b 03 810000 0020 \
        bdfd4926ecd611ee6fa67ceac3045f32b8e9c5b3b5fbebcfdbbaed1082f8ea52";

/// A quote of two banks, with a nonce of 32 bytes, by the same key.
pub(crate) const RSA_TWO_BANKS: &str = "ff544347 8018 0022 \
        000bde213066bcb2e45af5c1ef49eddb9df8b8141685d4d94a654f703f33f24bde36 0020 \
        00112233445566778899aabbccddeeff00112233445566778899aabbccddeeff 000000000000064c \
        00000001 00000000 01 2019102300163636 00000002 0004 03 030000 000b 03 810481 0020 \
        04e23d1d664f36ce1d0b99f1ace35d8c776073518dd55f1c7ac9c8fb6163e4a7";

/// A quote of all PCRs of SHA-256, by an ECC key.
pub(crate) const ECC_ONE_BANK: &str = "ff544347 8018 0022 \
        000b32536abaa9d80c180585b5fcd633c102aaa8a5914c4d2ba8e48e88dc477b4fae 0002 cafe \
        0000000000000680 00000001 00000000 01 2019102300163636 00000001 000b 03 ffffff 0020 \
        3a5de426b8889dc1d03fe8e43f4080b2090f3529aa4bb450a7c8c401c472318b";

/// A quote of PCR 14 of SHA-384, without a nonce, by the same key.
pub(crate) const ECC_NO_NONCE: &str = "ff544347 8018 0022 \
        000b32536abaa9d80c180585b5fcd633c102aaa8a5914c4d2ba8e48e88dc477b4fae 0000 \
        00000000000006a6 00000001 00000000 01 2019102300163636 00000001 000c 03 004000 0020 \
        17b0761f87b081d5cf10757ccc89f12be355c70e2e29df288b65b30710dcbcd1";

/// A quote of three banks, in the order in which they were asked for, by the same key.
pub(crate) const ECC_THREE_BANKS: &str = "ff544347 8018 0022 \
        000b32536abaa9d80c180585b5fcd633c102aaa8a5914c4d2ba8e48e88dc477b4fae 0001 ff \
        00000000000006cc 00000001 00000000 01 2019102300163636 00000003 000d 03 000080 \
        0004 03 000100 000b 03 000200 0020 \
        5b517952cbe9c4c147bc3f3434f9d82409e76d09ea58905aefe7fb5415912d9a";

/// What the TPM signs for `TPM2_Certify`: `TPM_ST_ATTEST_CERTIFY`.
pub(crate) const CERTIFY: &str = "ff544347 8017 0022 \
        000bde213066bcb2e45af5c1ef49eddb9df8b8141685d4d94a654f703f33f24bde36 0004 00ff55aa \
        00000000000006f6 00000001 00000000 01 2019102300163636 \
        0022000bf2b25d6da531e4a08c782e0960eb878da1ed1f3a535e507608cdd8b38acf87c20022000bde213066bcb2e45af5c1ef49eddb9df8b8141685d4d94a654f703f33f24bde36";

/// What the TPM signs for `TPM2_GetTime`: `TPM_ST_ATTEST_TIME`.
pub(crate) const GETTIME: &str = "ff544347 8019 0022 \
        000bde213066bcb2e45af5c1ef49eddb9df8b8141685d4d94a654f703f33f24bde36 0002 0a0b \
        0000000000000723 00000001 00000000 01 2019102300163636 \
        000000000000072300000000000007230000000100000000012019102300163636";

/// The fields of [`RSA_NO_NONCE`] before the byte `safe`, this byte with the version of the
/// firmware, and the digest.
pub(crate) const BEFORE_SAFE: &str = "ff544347 8018 0022 \
    000bde213066bcb2e45af5c1ef49eddb9df8b8141685d4d94a654f703f33f24bde36 \
    0000 0000000000000614 00000001 00000000";

pub(crate) const SAFE: &str = "01 2019102300163636";

pub(crate) const DIGEST: &str =
    "0020 bdfd4926ecd611ee6fa67ceac3045f32b8e9c5b3b5fbebcfdbbaed1082f8ea52";
