// @generated from proved source. It is not edited.

//! How arguments of nodes are written.

use core::fmt::Write as _;

use core::fmt;

/// Bytes, displayed as two upper case hex digits each.
#[derive(Clone, Copy, Debug)]
pub(crate) struct HexBytes<'a>(pub(crate) &'a [u8]);

impl fmt::Display for HexBytes<'_> {
    fn fmt(&self, f: &mut fmt::Formatter<'_>) -> fmt::Result {
        write_hex(f, self.0)
    }
}

/// Writes two upper case hex digits for each byte.
#[inline]
fn write_hex(f: &mut fmt::Formatter<'_>, bytes: &[u8]) -> fmt::Result {
    for byte in bytes {
        write!(f, "{}", HexByte(*byte))?;
    }
    Ok(())
}

/// A byte, displayed as two upper case hex digits.
#[derive(Clone, Copy, Debug)]
pub(crate) struct HexByte(pub(crate) u8);

impl fmt::Display for HexByte {
    fn fmt(&self, f: &mut fmt::Formatter<'_>) -> fmt::Result {
        let byte = self.0;
        write!(f, "{byte:02X}")
    }
}

/// Returns whether bytes are a text that can be an argument: printable characters of ASCII, but
/// no parenthesis and no comma.
#[inline]
pub(crate) fn is_argument(text: &[u8]) -> bool {
    text.iter().all(|c| is_argument_character(*c))
}

/// Returns whether an argument may have a character.
#[inline]
pub(crate) fn is_argument_character(c: u8) -> bool {
    (0x20..0x7f).contains(&c) && c != b'(' && c != b')' && c != b','
}

/// Writes a text that can be an argument.
#[inline]
pub(crate) fn write_argument(f: &mut fmt::Formatter<'_>, text: &[u8]) -> fmt::Result {
    for c in text {
        f.write_char(char::from(*c))?;
    }
    Ok(())
}

/// Returns whether a text in quotes may have a character.
#[inline]
pub(crate) fn is_serial_character(c: u8) -> bool {
    is_argument_character(c) && c != b'"'
}
