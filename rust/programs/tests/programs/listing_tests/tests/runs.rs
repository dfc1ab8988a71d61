// @generated from proved source. It is not edited.

use crate::support::fallible::*;

use crate::support::test::Fail;
use crate::test_support::bytes;
use crate::test_support::samples::{LAST_OF_FEBRUARY, LOG1, ROOT_BRIDGE, TWO_INSTANCES};
use crate::uefi_listing::command::Command;
use crate::uefi_listing::listing::Outcome::{self, Listed, Refused};

/// The listing of [`TWO_INSTANCES`].
const TWO_INSTANCES_LISTING: &str = "instance 18\n  a0 b0 0a0b\n  a1 b1 14151617\n\
    instance 18\n  a2 b2 1e1f\n  a3 b3 28292a2b\npath 36\n";

const LOG1_LISTING: &str = "event 0 0x00000008 1489f923c4dca729178b3e3233458550d8dddf29 0000\n\
    event 0 0x80000008 c706e7dd36392984eb06aaa08ff336844077b3ed \
    000082000000000000000e0000000000\nevents 2\n";

/// The listing of a log without a header.
const NO_HEADER: &str = "header none\nevents 0\n";

/// A header of 69 bytes with two rows for SHA-1, and an event of two digests.
const TWO_DIGESTS: &str = "00000000 03000000 0000000000000000000000000000000000000000 \
    25000000 53706563204944204576656e74303300 00000000 00020002 \
    02000000 04001400 04000400 00 \
    00000000 08000000 02000000 \
    0400 1111111111111111111111111111111111111111 \
    0400 2222222222222222222222222222222222222222 00000000";

const TWO_DIGESTS_LISTING: &str =
    "header 0 2.0.0 2\n  algorithm 0x0004 20\n  algorithm 0x0004 4\nvendor\n\
    event 0 0x00000008\n  digest 0x0004 1111111111111111111111111111111111111111\n  \
    digest 0x0004 2222222222222222222222222222222222222222\nevents 1\n";

/// Two descriptors at a stride of 40, the first with every bit set.
const FALLING_MAP: &str = "\
    ffffffff 00000000 ffffffffffffffff ffffffffffffffff ffffffffffffffff ffffffffffffffff \
    07000000 ffffffff 0010000000000000 0020000000000000 0000000000000000 0100000000000080";

const FALLING_LISTING: &str =
    "entry 4294967295 0xffffffffffffffff 0xffffffffffffffff 18446744073709551615 0xffffffffffffffff\n\
    entry 7 0x1000 0x2000 0 0x8000000000000001\nsorted no\nentries 2\n";

/// The line for sizes that make no map.
const NO_MAP: &str = "refused InvalidSize\n";

/// The listing of [`ROOT_BRIDGE`].
const ROOT_BRIDGE_LISTING: &str = "resource Io 0 0 0x0 0x6000 0x6fff 0x0 0x1000\n\
    resource Memory 0 0 0x20 0x80000000 0x810fffff 0x0 0x1100000\n\
    resource Memory 0 0 0x40 0xc000000000 0xc0000fffff 0x0 0x100000\n\
    resource Bus 0 0 0x0 0x0 0x0 0x0 0x1\nresources 4\n";

/// The first two records of the same list, without an end tag.
const CUT_AFTER_A_RECORD: &str = "\
    8a 2b00 01 00 00  0000000000000000 0060000000000000 ff6f000000000000 \
        0000000000000000 0010000000000000 \
    8a 2b00 00 00 00  2000000000000000 0000008000000000 ffff0f8100000000 \
        0000000000000000 0000100100000000";

/// The listing of [`LAST_OF_FEBRUARY`].
const LAST_OF_FEBRUARY_LISTING: &str = "time 2024-02-31 00:00:00.000000000 local 0\n";

/// The record of a file named `ab`, of which all else is zero, rounded up to 88 bytes.
const AB_FILE: &str = "58000000 00000000 00000000 00000000 00000000 00000000 \
    00000000 00000000 00000000 00000000 00000000 00000000 00000000 00000000 00000000 00000000 \
    00000000 00000000 00000000 00000000 6100 6200 0000 0000";

const AB_FILE_LISTING: &str = "size 88\nfile 0\nphysical 0\n\
    created 00000000000000000000000000000000\n\
    accessed 00000000000000000000000000000000\n\
    modified 00000000000000000000000000000000\n\
    attribute 0x0\nname 00610062\n";

/// The text of a configuration with two elements, of which the first keeps two pairs.
const TWO_ELEMENTS: &str = "GUID=16d6474bd6a852459d44ccad2e0f4cf9&NAME=0041&PATH=7fff0400\
    &OFFSET=00&WIDTH=01&VALUE=00&x=1&WIDTH=02&OFFSET=01&WIDTH=01&VALUE=0a";

const TWO_ELEMENTS_LISTING: &str =
    "config 4b47d616-a8d6-4552-9d44-ccad2e0f4cf9\n  name A\n  path 4\n  element 0 1 00\n  \
    nv x=1\n  nv WIDTH=02\n  element 1 1 0a\nitems 1\n";

/// A command, its input as [`input_of`] reads it, its listing and its outcome.
pub type Run = (Command, &'static str, &'static str, Outcome);

/// Runs of each command, and of each that can be refused a refused one too. The tests `memory` and
/// `writers` go over them.
pub const RUNS: [Run; 19] = [
    (
        Command::Path,
        "7fff 0600 aabb",
        "instance 6\npath 6\n",
        Listed,
    ),
    (Command::Path, TWO_INSTANCES, TWO_INSTANCES_LISTING, Listed),
    (Command::Path, "00", "refused InvalidLength\n", Refused),
    (Command::Log1(Some(34)), LOG1, LOG1_LISTING, Listed),
    (Command::Log1(None), LOG1, "events 0\n", Listed),
    (
        Command::Log2(Some(69)),
        TWO_DIGESTS,
        TWO_DIGESTS_LISTING,
        Listed,
    ),
    (Command::Log2(Some(68)), TWO_DIGESTS, NO_HEADER, Listed),
    (
        Command::Log2After(Some(69)),
        TWO_DIGESTS,
        TWO_DIGESTS_LISTING,
        Listed,
    ),
    (Command::Config, TWO_ELEMENTS, TWO_ELEMENTS_LISTING, Listed),
    (Command::Config, "ff", "refused NotUtf8\n", Refused),
    (Command::Map(40), FALLING_MAP, FALLING_LISTING, Listed),
    (Command::Map(39), FALLING_MAP, NO_MAP, Refused),
    (Command::Pci, ROOT_BRIDGE, ROOT_BRIDGE_LISTING, Listed),
    (
        Command::Pci,
        CUT_AFTER_A_RECORD,
        "refused NoEndTag\n",
        Refused,
    ),
    (Command::Pci, "", "refused NoEndTag\n", Refused),
    (
        Command::Time,
        LAST_OF_FEBRUARY,
        LAST_OF_FEBRUARY_LISTING,
        Listed,
    ),
    (Command::Time, "", "refused InvalidSize\n", Refused),
    (Command::Info(86), AB_FILE, AB_FILE_LISTING, Listed),
    (
        Command::Info(85),
        AB_FILE,
        "refused BAD_BUFFER_SIZE\n",
        Refused,
    ),
];

/// Returns the bytes of a run's input: a text that is listed as it stands, else hex.
pub fn input_of((command, input, _, outcome): &Run) -> Result<Vec<u8>, Fail> {
    match (command, outcome) {
        (Command::Config, Listed) => Ok(Vec::fallible_from_slice(input.as_bytes())?),
        _ => Ok(bytes(input)?),
    }
}
