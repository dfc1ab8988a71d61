// @generated from proved source. It is not edited.

use crate::support::fallible::*;

use crate::test_support::bytes;

/// The header of a partition table up to the size of an entry: 128 entries, from block 2 on.
const GPT_START: &str =
    "4546492050415254 00000100 5c000000 44332211 00000000 0100000000000000 ffff030000000000 \
    2200000000000000 deff030000000000 a73bdda20b4c4e4c9d1f6f5a1c6f0d11 0200000000000000 \
    80000000";

/// What follows the size of an entry.
const GPT_END: &str = "88776655";

/// The entry of a system partition.
const SYSTEM: &str =
    "28732ac11ff8d211ba4b00a0c93ec93b 11111111222233334444555555555555 0008000000000000 \
    ff27030000000000 0000000000000000 4500460049002000530079007300740065006d00 \
    0000000000000000000000000000000000000000000000000000 0000000000000000000000000000000000000000000000000000";

/// The entry of a partition of Linux.
const LINUX: &str =
    "af3dc60f838472478e793d69d8477de4 66666666777788889999aaaaaaaaaaaa 0028030000000000 \
    deff030000000000 0000000000000080 72006f006f007400 \
    0000000000000000000000000000000000000000000000000000000000000000 0000000000000000000000000000000000000000000000000000000000000000";

/// The partition table of a boot by OVMF for IA-32, whose `UINTN`s have four bytes.
const GPT_IA32: &str =
    "4546492050415254 00000100 5c000000 7b048a75 00000000 0100000000000000 ff0f020000000000 \
    2200000000000000 de0f020000000000 11111111222233334444555555555555 0200000000000000 \
    80000000 80000000 4d22351e 01000000 \
    28732ac11ff8d211ba4b00a0c93ec93b aaaaaaaabbbbccccddddeeeeeeeeeeee 0008000000000000 \
    ffff010000000000 0000000000000000 4500460049002000530079007300740065006d00 \
    0000000000000000000000000000000000000000000000000000 0000000000000000000000000000000000000000000000000000";

/// The image of that boot: PciRoot(0x0)/Pci(0x2,0x0)/HD(1,GPT,..)/\EFI\BOOT\BOOTIA32.EFI.
const IMAGE_IA32: &str = "1070193d00000000 00103900 00000000 72000000 \
    02010c00d041030a00000000 010106000002 \
    04012a0001000000000800000000000000f8010000000000aaaaaaaabbbbccccddddeeeeeeeeeeee0202 \
    040432005c004500460049005c0042004f004f0054005c0042004f004f00540049004100330032002e0045004600490000007fff0400";

/// A list of two hashes of SHA-256 from Microsoft's `dbx`.
const HASHES: &str = "2616c4c14c509240aca941f936934328 7c000000 00000000 30000000 \
    bd9afa775903324dbd6028f4e78f784b \
    80b4d96931bf0d02fd91a61e19d14f1da452e66db2408ca8604d411f92659f0a \
    bd9afa775903324dbd6028f4e78f784b \
    f52f83a3fa9cfbd6920f722824dbe4034534d25b8507246b3b957dac6e1bce7a";

/// A list of the first of them.
const HASH: &str = "2616c4c14c509240aca941f936934328 4c000000 00000000 30000000 \
    bd9afa775903324dbd6028f4e78f784b \
    80b4d96931bf0d02fd91a61e19d14f1da452e66db2408ca8604d411f92659f0a";

/// A list of a certificate of four bytes.
const CERTIFICATE: &str = "a159c0a5e494a74a87b5ab155c2bf072 30000000 00000000 14000000 \
    bd9afa775903324dbd6028f4e78f784b 30020500";

/// Returns the digits of the sample that has a name, or of any other text the text.
fn sample<'a>(name: &'a str) -> &'a str {
    match name {
        "GPT_START" => GPT_START,
        "GPT_END" => GPT_END,
        "SYSTEM" => SYSTEM,
        "LINUX" => LINUX,
        "GPT_IA32" => GPT_IA32,
        "IMAGE_IA32" => IMAGE_IA32,
        "HASHES" => HASHES,
        "HASH" => HASH,
        "CERTIFICATE" => CERTIFICATE,
        digits => digits,
    }
}

/// Returns the bytes of an input: digits and names of samples, with spaces between them.
pub(crate) fn bytes_of(input: &str) -> Option<Vec<u8>> {
    let mut all = Vec::new();
    for word in input.split(" ") {
        let part = bytes(sample(word)).ok()?;
        all.fallible_extend_from_slice(part.as_slice()).ok()?;
    }
    Some(all)
}
