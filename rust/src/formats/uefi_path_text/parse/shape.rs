// @generated from proved source. It is not edited.

//! Digits of a fixed shape, read.

use crate::formats::uefi_path_text::form::shape::Shape;

impl Shape {
    /// Returns the pattern: `x` for a hex digit, and other characters as they are.
    #[inline]
    fn pattern(self) -> &'static [u8] {
        match self {
            Shape::Guid => b"xxxxxxxx-xxxx-xxxx-xxxx-xxxxxxxxxxxx",
            Shape::Eui64 => b"xx-xx-xx-xx-xx-xx-xx-xx",
            Shape::Ieee1394 => b"xxxxxxxxxxxxxxxx",
            Shape::Address => b"xxxxxxxxxxxx",
        }
    }

    /// Returns the offsets of the digits of each byte.
    #[inline]
    pub(crate) fn offsets(self) -> &'static [usize] {
        match self {
            Shape::Guid => &[6, 4, 2, 0, 11, 9, 16, 14, 19, 21, 24, 26, 28, 30, 32, 34],
            Shape::Eui64 => &[21, 18, 15, 12, 9, 6, 3, 0],
            Shape::Ieee1394 => &[14, 12, 10, 8, 6, 4, 2, 0],
            Shape::Address => &[0, 2, 4, 6, 8, 10],
        }
    }

    /// Returns whether a text has the shape.
    ///
    /// # Errors
    ///
    /// The offset of the first character that no text of the shape has there.
    #[inline]
    pub(crate) fn check(self, text: &[u8]) -> Result<(), usize> {
        let marks = self.pattern();
        for (offset, c) in text.iter().enumerate() {
            if offset == marks.len() || !fits(marks[offset], *c) {
                return Err(offset);
            }
        }
        if text.len() == marks.len() {
            Ok(())
        } else {
            Err(text.len())
        }
    }
}

/// Returns whether a character is what a pattern has: a hex digit, or the same character.
#[inline]
fn fits(mark: u8, c: u8) -> bool {
    if mark == b'x' {
        is_hex_digit(c)
    } else {
        c == mark
    }
}

/// Returns whether a character is a hex digit.
#[inline]
pub(crate) fn is_hex_digit(c: u8) -> bool {
    c.is_ascii_hexdigit()
}

/// Returns the byte of two hex digits.
#[inline]
pub(crate) fn byte_of_digits(high: u8, low: u8) -> u8 {
    16 * hex_value(high) + hex_value(low)
}

/// Returns the value of a hex digit.
#[inline]
fn hex_value(c: u8) -> u8 {
    match c {
        b'0'..=b'9' => c - b'0',
        b'A'..=b'F' => c - b'A' + 10,
        _ => c - b'a' + 10,
    }
}
