// @generated from proved source. It is not edited.

//! Texts for display, in which nothing is hidden.

use core::fmt::Write as _;

use crate::formats::uefi_path_text::text::arguments::HexByte;
use crate::formats::uefi_path_text::text::file_name::is_control;
use crate::formats::uefi_path_text::write::bytes::front;
use core::fmt;
use crate::formats::uefi_base::UnalignedSlice;

/// The bytes of a text: those that aren't printable characters of ASCII as `\x0A`.
#[derive(Clone, Copy, Debug)]
pub(crate) struct EscapedBytes<'a>(pub(crate) &'a [u8]);

impl fmt::Display for EscapedBytes<'_> {
    fn fmt(&self, f: &mut fmt::Formatter<'_>) -> fmt::Result {
        write_escaped_bytes(f, self.0)
    }
}

/// Writes them.
#[inline]
fn write_escaped_bytes(f: &mut fmt::Formatter<'_>, bytes: &[u8]) -> fmt::Result {
    for byte in bytes {
        write!(f, "{}", EscapedByte(*byte))?;
    }
    Ok(())
}

/// A byte of such a text.
#[derive(Clone, Copy, Debug)]
struct EscapedByte(u8);

impl fmt::Display for EscapedByte {
    fn fmt(&self, f: &mut fmt::Formatter<'_>) -> fmt::Result {
        let byte = self.0;
        if (0x20..0x7f).contains(&byte) {
            f.write_char(char::from(byte))
        } else {
            write!(f, "\\x{}", HexByte(byte))
        }
    }
}

/// The characters of units of two bytes, up to the first NUL or the end: control characters as
/// `\u{A}`.
#[derive(Clone, Copy, Debug)]
pub(crate) struct EscapedUnits<'a>(UnalignedSlice<'a>);

impl<'a> EscapedUnits<'a> {
    /// Returns the whole units of the bytes.
    #[inline]
    pub(crate) fn new(bytes: &'a [u8]) -> EscapedUnits<'a> {
        EscapedUnits(UnalignedSlice::new(front(bytes, bytes.len() - bytes.len() % 2)))
    }

    /// Returns whether there is no character.
    #[inline]
    pub(crate) fn is_empty(&self) -> bool {
        self.0.chars_lossy().next().is_none()
    }
}

impl fmt::Display for EscapedUnits<'_> {
    fn fmt(&self, f: &mut fmt::Formatter<'_>) -> fmt::Result {
        write_escaped_units(f, self.0)
    }
}

/// Writes them.
#[inline]
fn write_escaped_units(
    f: &mut fmt::Formatter<'_>,
    units: UnalignedSlice<'_>,
) -> fmt::Result {
    for character in units.chars_lossy() {
        write!(f, "{}", EscapedCharacter(character))?;
    }
    Ok(())
}

/// A character of such a name.
#[derive(Clone, Copy, Debug)]
struct EscapedCharacter(char);

impl fmt::Display for EscapedCharacter {
    fn fmt(&self, f: &mut fmt::Formatter<'_>) -> fmt::Result {
        let character = self.0;
        if is_control(character) {
            let number = u32::from(character);
            write!(f, "\\u{{{number:X}}}")
        } else {
            f.write_char(character)
        }
    }
}
