// @generated from proved source. It is not edited.

use crate::boot_listing::Outcome::{self, Listed, Refused};
use crate::boot_listing::command::Form::{self, Json, Lines};
use crate::test_support::samples::TWO_INSTANCES;

/// The form and the input of a command, what it prints, and its outcome. Bytes are hex.
pub type Run = (Form, &'static str, &'static str, Outcome);

/// Load options.
pub const OPTIONS: [Run; 8] = [
    (
        Lines,
        "09010000 0a00  6100 0000  0101 0600 001f  7fff 0400  cc",
        "attributes 0x109\ndescription 0061\npath Pci(0x1F,0x0)\ndata cc\n",
        Listed,
    ),
    (
        Lines,
        "00000080 0400  0000  7fff 0400",
        "attributes 0x80000000\ndescription\npath \ndata\n",
        Listed,
    ),
    (Lines, "", "refused TooShort\n", Refused),
    (
        Lines,
        "00000000 0400 6100",
        "refused NotNulTerminated\n",
        Refused,
    ),
    (
        Lines,
        "00000000 0500 0000 7fff 0400",
        "refused FilePathListTooLong\n",
        Refused,
    ),
    (
        Lines,
        "00000000 0300 0000 7fff 0400",
        "refused FilePath\n",
        Refused,
    ),
    (
        Json,
        "09010000 0a00  6100 0000  0101 0600 001f  7fff 0400  cc",
        "{\"attributes\":265,\"description\":\"a\",\"path\":\"Pci(0x1F,0x0)\",\"data\":\"cc\"}\n",
        Listed,
    ),
    (Json, "", "{\"fault\":\"refused TooShort\"}\n", Refused),
];

/// Device paths, and their texts.
pub const PATHS: [Run; 6] = [
    (
        Lines,
        TWO_INSTANCES,
        "Path(160,176,0A0B)/Path(161,177,14151617)\nPath(162,178,1E1F)/Path(163,179,28292A2B)\n",
        Listed,
    ),
    (
        Lines,
        "0101 0600 001f  7f01 0400  7fff 0400",
        "Pci(0x1F,0x0)\n\n",
        Listed,
    ),
    (Lines, "7fff 0400", "\n", Listed),
    (Lines, "00", "refused InvalidLength\n", Refused),
    (
        Json,
        TWO_INSTANCES,
        "{\"paths\":[\"Path(160,176,0A0B)/Path(161,177,14151617)\",\
         \"Path(162,178,1E1F)/Path(163,179,28292A2B)\"]}\n",
        Listed,
    ),
    (
        Json,
        "00",
        "{\"fault\":\"refused InvalidLength\"}\n",
        Refused,
    ),
];

/// Texts of device paths, and their bytes.
pub const TEXTS: [Run; 9] = [
    (
        Lines,
        "PciRoot(0x0)/Pci(0x1F,0x2)/\\EFI\\b.efi",
        "02010c00d041030a0000000001010600021f\
         04041a005c004500460049005c0062002e0065006600690000007fff0400\n",
        Listed,
    ),
    (
        Lines,
        "Path(160,176,0A0B),Path(160,176)",
        "a0b006000a0b7f010400a0b004007fff0400\n",
        Listed,
    ),
    (Lines, "", "7fff0400\n", Listed),
    (Lines, "Pcj(0x1F,0x0)", "refused UnknownNode\n", Refused),
    (Lines, "Pci(0x1F,0x0G)", "refused Argument\n", Refused),
    (Lines, "Pci(0x1F,0x0", "refused Missing\n", Refused),
    (Lines, "IPv4(10.0.0.1,65536)", "refused Argument\n", Refused),
    (
        Json,
        "Path(160,176,0A0B)",
        "{\"bytes\":\"a0b006000a0b7fff0400\"}\n",
        Listed,
    ),
    (
        Json,
        "Pcj(0x1F,0x0)",
        "{\"fault\":\"refused UnknownNode\"}\n",
        Refused,
    ),
];
