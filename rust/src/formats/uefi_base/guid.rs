// @generated from proved source. It is not edited.

use crate::formats::uefi_base::text_error::GuidFromStrError;
use core::fmt;
use core::str::FromStr;

/// The length of a GUID's text, in bytes.
const TEXT_LENGTH: usize = 36;

/// A GUID (UEFI 2.10, Appendix A), as a record holds it.
///
/// | offset | bytes | field |
/// |---|---|---|
/// | 0 | 4 | time, low part, little-endian |
/// | 4 | 2 | time, middle part, little-endian |
/// | 6 | 2 | time, high part with the version, little-endian |
/// | 8 | 2 | clock sequence with the variant, high byte first |
/// | 10 | 6 | node |
///
/// Two GUIDs are equal if all their bytes are. Their order is that of the bytes, from the first on,
/// which isn't the order of their texts.
///
/// `FromStr` reads a GUID from its text, and `Display` writes it.
#[derive(Clone, Copy, PartialEq, Eq, PartialOrd, Ord, Hash)]
#[repr(transparent)]
pub struct Guid(pub [u8; 16]);

impl Guid {
    /// Returns the GUID with these bytes.
    #[must_use]
    #[inline]
    pub const fn from_bytes(bytes: [u8; 16]) -> Guid {
        Guid(bytes)
    }

    /// Returns the bytes of the GUID.
    #[must_use]
    #[inline]
    pub const fn to_bytes(self) -> [u8; 16] {
        self.0
    }
}

/// Writes five groups of lowercase hex digits, separated by dashes, as in
/// `09576e92-6d3f-11d2-8e39-00a0c969723b`. The first three groups are the little-endian numbers of
/// the table above, so their bytes appear in reverse order.
impl fmt::Display for Guid {
    fn fmt(&self, f: &mut fmt::Formatter<'_>) -> fmt::Result {
        let b = self.0;
        let (low_end, low_start) = (HexPair(b[3], b[2]), HexPair(b[1], b[0]));
        let (middle, high) = (HexPair(b[5], b[4]), HexPair(b[7], b[6]));
        let (clock, node_start) = (HexPair(b[8], b[9]), HexPair(b[10], b[11]));
        let (node_middle, node_end) = (HexPair(b[12], b[13]), HexPair(b[14], b[15]));
        write!(
            f,
            "{low_end}{low_start}-{middle}-{high}-{clock}-{node_start}{node_middle}{node_end}"
        )
    }
}

/// Two bytes, displayed as two lowercase hex digits each.
#[derive(Clone, Copy, Debug)]
struct HexPair(u8, u8);

impl fmt::Display for HexPair {
    fn fmt(&self, f: &mut fmt::Formatter<'_>) -> fmt::Result {
        let HexPair(first, second) = *self;
        write!(f, "{first:02x}{second:02x}")
    }
}

/// Reads `xxxxxxxx-xxxx-xxxx-xxxx-xxxxxxxxxxxx` (UEFI 2.10, Appendix A), where each `x` is a hex
/// digit of either case. The first three groups are the little-endian numbers of the table of
/// [`Guid`], so their bytes are read in reverse order. Reads each text that `Display` writes.
///
/// # Errors
///
/// Fails with the first of these errors that applies:
///
/// - [`InvalidLength`](GuidFromStrError::InvalidLength) if the text doesn't have 36 bytes.
/// - At the lowest index whose byte doesn't fit:
///   [`InvalidSeparator`](GuidFromStrError::InvalidSeparator) with that index if it is 8, 13, 18 or
///   23, where the byte isn't `-`; [`InvalidHex`](GuidFromStrError::InvalidHex) with that index if
///   it is another one, where the byte isn't a hex digit.
impl FromStr for Guid {
    type Err = GuidFromStrError;

    #[inline]
    fn from_str(text: &str) -> Result<Guid, GuidFromStrError> {
        let text = text.as_bytes();
        match fault_of(text) {
            Some(fault) => Err(fault),
            None => Ok(Guid(bytes_of(text))),
        }
    }
}

/// Returns the error that a text has, or `None` if it is that of a GUID.
#[inline]
fn fault_of(text: &[u8]) -> Option<GuidFromStrError> {
    if text.len() != TEXT_LENGTH {
        return Some(GuidFromStrError::InvalidLength);
    }
    for (index, byte) in text.iter().enumerate() {
        if !fits(index, *byte) {
            return Some(unfit_at(index));
        }
    }
    None
}

/// Returns the error for a byte at this index that the text of a GUID doesn't have there.
#[inline]
fn unfit_at(index: usize) -> GuidFromStrError {
    if is_separator(index) {
        GuidFromStrError::InvalidSeparator(index)
    } else {
        GuidFromStrError::InvalidHex(index)
    }
}

/// Returns whether the text of a GUID may have this byte at this index.
#[inline]
fn fits(index: usize, byte: u8) -> bool {
    if is_separator(index) {
        byte == b'-'
    } else {
        byte.is_ascii_hexdigit()
    }
}

/// Returns whether the text of a GUID has a dash at this index.
#[inline]
fn is_separator(index: usize) -> bool {
    matches!(index, 8 | 13 | 18 | 23)
}

/// Returns the bytes of the GUID whose text it is.
#[inline]
fn bytes_of(text: &[u8]) -> [u8; 16] {
    [
        byte_of_digits(text, 6),
        byte_of_digits(text, 4),
        byte_of_digits(text, 2),
        byte_of_digits(text, 0),
        byte_of_digits(text, 11),
        byte_of_digits(text, 9),
        byte_of_digits(text, 16),
        byte_of_digits(text, 14),
        byte_of_digits(text, 19),
        byte_of_digits(text, 21),
        byte_of_digits(text, 24),
        byte_of_digits(text, 26),
        byte_of_digits(text, 28),
        byte_of_digits(text, 30),
        byte_of_digits(text, 32),
        byte_of_digits(text, 34),
    ]
}

/// Returns the byte of the two hex digits from `offset` on, in the text of a GUID.
#[inline]
fn byte_of_digits(text: &[u8], offset: usize) -> u8 {
    16 * hex_value(text[offset]) + hex_value(text[offset + 1])
}

/// Returns the value of a hex digit.
#[inline]
fn hex_value(digit: u8) -> u8 {
    match digit {
        b'0'..=b'9' => digit - b'0',
        b'A'..=b'F' => digit - b'A' + 10,
        _ => digit - b'a' + 10,
    }
}
