// @generated from proved source. It is not edited.

use crate::test_support::samples::{CON_OUT, TWO_INSTANCES};

/// `Boot0000`, `Boot0001` and `Boot0002` of an OVMF firmware: a menu of the firmware itself, a disk
/// of QEMU, and the shell of EFI.
const UI_APP: &str = "09010000 2c00  5500 6900 4100 7000 7000 0000 \
    0407 1400 c9bdb87cebf8344faaea3ee4af6516a1 \
    0406 1400 21aa2c4614760345836e8ab6f4662331  7fff 0400";

const DISK: &str = "01000000 2000 \
    5500 4500 4600 4900 2000 5100 4500 4d00 5500 2000 4800 4100 5200 4400 4400 4900 5300 4b00 2000 \
    5100 4d00 3000 3000 3000 3000 3100 2000 0000 \
    0201 0c00 d041030a00000000  0101 0600 021f  0312 0a00 0000ffff0000  7fff 0400 \
    4eac0881119f594d850ee21a522c59b2";

const SHELL: &str = "01000000 2c00 \
    4500 4600 4900 2000 4900 6e00 7400 6500 7200 6e00 6100 6c00 2000 5300 6800 6500 6c00 6c00 0000 \
    0407 1400 c9bdb87cebf8344faaea3ee4af6516a1 \
    0406 1400 83a5047c3e9e1c4fad65e05268d0b4d1  7fff 0400";

/// Options without a description, one with other bytes after its path in the file path list, and
/// one with a category and a bit that has no name.
const SMALLEST: &str = "00000000 0400  0000  7fff 0400";

const TWO_PATHS: &str = "03000000 0a00  4100 0000  7fff 0600 aabb  7f01 0400  cc";

const UNNAMED_BIT: &str = "00010080 0500  ffff 0000  7fff 0400 dd";

/// An option with half of a surrogate pair in its description, which is no UCS-2 text.
const SURROGATE: &str = "01000000 0400  00d8 0000  7fff 0400";

/// Returns the digits of the sample that has a name, or of any other text the text.
pub(crate) fn sample<'a>(name: &'a str) -> &'a str {
    match name {
        "TWO_INSTANCES" => TWO_INSTANCES,
        "CON_OUT" => CON_OUT,
        "UI_APP" => UI_APP,
        "DISK" => DISK,
        "SHELL" => SHELL,
        "SMALLEST" => SMALLEST,
        "TWO_PATHS" => TWO_PATHS,
        "UNNAMED_BIT" => UNNAMED_BIT,
        "SURROGATE" => SURROGATE,
        digits => digits,
    }
}
