// @generated from proved source. It is not edited.

use crate::support::fallible::*;

use crate::test_support::samples::{
    CRTM_VERSION, FOUR_EVENTS, FOUR_HEADER, LOG1, MACHINE_LOG, SHA1_HEADER,
};
use crate::test_support::{bytes, joined};

/// A header of 69 bytes with two rows for SHA-1, the second with another size.
const SHA1_TWICE: &str = "00000000 03000000 0000000000000000000000000000000000000000 25000000 \
    53706563204944204576656e74303300 00000000 00020002 02000000 04001400 04000400 00";

/// `SHA1_HEADER` with the size 0.
const NO_DIGEST_BYTES: &str = "00000000 03000000 0000000000000000000000000000000000000000 21000000 \
    53706563204944204576656e74303300 00000000 00020002 01000000 04000000 00";

/// `SHA1_HEADER` in an event of 81 bytes: 16 zero bytes follow the header.
const LONG_HEADER: &str = "00000000 03000000 0000000000000000000000000000000000000000 31000000 \
    53706563204944204576656e74303300 00000000 00020002 01000000 04001400 00 \
    00000000000000000000000000000000";

/// A header event of 76 bytes, in which each field has a value of its own. SHA-1 has two rows.
const HEADER: &str = "00000000 03000000 0000000000000000000000000000000000000000 2c000000 \
    53706563204944204576656e74303300 01000000 03 02 69 04 \
    03000000 04001400 0b002000 04000400 03 aabbcc";

/// A header with eleven rows: SHA-1 and the algorithms 1 to 9 have a row each, SHA-1 one more at
/// the end.
const ELEVEN_ROWS: &str = "00000000 03000000 0000000000000000000000000000000000000000 49000000 \
    53706563204944204576656e74303300 00000000 00020002 0b000000 \
    04001400 01000100 02000200 03000300 05000500 06000600 07000700 08000800 09000900 0a000a00 \
    04000400 00";

/// An event of version 2 with two digests of SHA-1.
const TWO_DIGESTS: &str = "00000000 08000000 02000000 \
    0400 1111111111111111111111111111111111111111 \
    0400 2222222222222222222222222222222222222222 00000000";

/// An event of version 2 that is all zero.
const ZERO_EVENT: &str = "00000000 00000000 00000000 00000000";

/// An event of PCR 1 in a log of version 1, of 32 bytes.
const V1_PCR1: &str = "01000000 08000000 aaaaaaaaaaaaaaaaaaaaaaaaaaaaaaaaaaaaaaaa 00000000";

/// An event of PCR 2 in a log of version 1, of 34 bytes.
const V1_PCR2: &str = "02000000 0d000000 bbbbbbbbbbbbbbbbbbbbbbbbbbbbbbbbbbbbbbbb 02000000 0708";

/// An event of PCR 1 under `SHA1_HEADER`, of 38 bytes.
const V2_PCR1: &str =
    "01000000 08000000 01000000 0400 aaaaaaaaaaaaaaaaaaaaaaaaaaaaaaaaaaaaaaaa 00000000";

/// An event of PCR 2 under `SHA1_HEADER`, of 40 bytes.
const V2_PCR2: &str =
    "02000000 0d000000 01000000 0400 bbbbbbbbbbbbbbbbbbbbbbbbbbbbbbbbbbbbbbbb 02000000 0708";

/// Returns the digits of the part of a log that has a name, or of any other text the text.
fn part<'a>(name: &'a str) -> &'a str {
    match name {
        "CRTM_VERSION" => CRTM_VERSION,
        "FOUR_HEADER" => FOUR_HEADER,
        "LOG1" => LOG1,
        "MACHINE_LOG" => MACHINE_LOG,
        "SHA1_HEADER" => SHA1_HEADER,
        "SHA1_TWICE" => SHA1_TWICE,
        "NO_DIGEST_BYTES" => NO_DIGEST_BYTES,
        "LONG_HEADER" => LONG_HEADER,
        "HEADER" => HEADER,
        "ELEVEN_ROWS" => ELEVEN_ROWS,
        "TWO_DIGESTS" => TWO_DIGESTS,
        "ZERO_EVENT" => ZERO_EVENT,
        "V1_PCR1" => V1_PCR1,
        "V1_PCR2" => V1_PCR2,
        "V2_PCR1" => V2_PCR1,
        "V2_PCR2" => V2_PCR2,
        digits => digits,
    }
}

/// Returns the log of two events with digests of four algorithms.
fn four() -> Option<Vec<u8>> {
    let digits = joined(&[FOUR_HEADER, FOUR_EVENTS]).ok()?;
    bytes(digits.as_str()).ok()
}

/// Returns the bytes of an input: digits and names of parts, with spaces between them. `FOUR` is that
/// of [`four`].
pub(crate) fn bytes_of(input: &str) -> Option<Vec<u8>> {
    let mut all = Vec::new();
    for word in input.split(" ") {
        let part = match word {
            "FOUR" => four()?,
            _ => bytes(part(word)).ok()?,
        };
        all.fallible_extend_from_slice(part.as_slice()).ok()?;
    }
    Some(all)
}

/// Returns a number in decimal digits, or the greatest one for `MAX`.
pub(crate) fn number(text: &str) -> Option<usize> {
    if text == "MAX" {
        return Some(usize::MAX);
    }
    text.parse::<usize>().ok()
}

/// The bytes of a log and its last entry. Either may be missing.
#[derive(Debug)]
pub(crate) struct LogInput {
    bytes: Option<Vec<u8>>,
    pub(crate) last_entry: Option<usize>,
}

impl LogInput {
    /// Returns the bytes.
    pub(crate) fn bytes(&self) -> Option<&[u8]> {
        match &self.bytes {
            Some(bytes) => Some(bytes.as_slice()),
            None => None,
        }
    }
}

/// Returns the log that an input has: its bytes and its last entry, where `-` stands for what is
/// missing.
pub(crate) fn log_input(input: &str) -> Option<LogInput> {
    let (digits, last_entry) = input.split_once(" ; ")?;
    let bytes = match digits {
        "-" => None,
        _ => Some(bytes_of(digits)?),
    };
    let last_entry = match last_entry {
        "-" => None,
        _ => Some(number(last_entry)?),
    };
    Some(LogInput { bytes, last_entry })
}

/// Returns the bytes of an input, and the two numbers after them.
pub(crate) fn bytes_and_numbers(input: &str) -> Option<(Vec<u8>, usize, usize)> {
    let (digits, numbers) = input.split_once(" ; ")?;
    let (one, other) = numbers.split_once(" ; ")?;
    Some((bytes_of(digits)?, number(one)?, number(other)?))
}

/// Appends a comma, unless a list begins here.
pub(crate) fn push_comma(text: &mut String) -> Option<()> {
    if text.as_str().ends_with("[") {
        return Some(());
    }
    text.fallible_push_str(", ").ok()
}

/// Appends bytes as `x"..."`, two hex digits a byte.
pub(crate) fn push_hex(text: &mut String, bytes: &[u8]) -> Option<()> {
    text.fallible_push_str("x\"").ok()?;
    for byte in bytes {
        fallible_write!(text, "{byte:02x}").ok()?;
    }
    text.fallible_push('"').ok()
}
