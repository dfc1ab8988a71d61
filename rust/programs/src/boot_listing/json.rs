// @generated from proved source. It is not edited.

//! Texts in strings of JSON.

use core::fmt::Write as _;

use crate::shown::is_control;
use core::fmt;

/// The characters of a text, as a string of JSON has them between its quotes (RFC 8259, 7).
///
/// A quote and a backslash come behind a backslash. A control, which [`is_control`] names, is `\u` and
/// four hex digits. Any other character is written as it is.
#[derive(Clone, Copy, Debug)]
pub struct JsonText<'a>(pub &'a str);

impl fmt::Display for JsonText<'_> {
    fn fmt(&self, f: &mut fmt::Formatter<'_>) -> fmt::Result {
        write_text(f, self.0)
    }
}

/// Writes each character of a text.
fn write_text(f: &mut fmt::Formatter<'_>, text: &str) -> fmt::Result {
    for character in text.chars() {
        write_character(f, character)?;
    }
    Ok(())
}

/// Writes a character of a text.
fn write_character(f: &mut fmt::Formatter<'_>, character: char) -> fmt::Result {
    if is_control(character) {
        return write_escape(f, u32::from(character));
    }
    if character == '"' || character == '\\' {
        return write!(f, "\\{character}");
    }
    f.write_char(character)
}

/// Writes `\u` and four hex digits.
fn write_escape(f: &mut fmt::Formatter<'_>, character: u32) -> fmt::Result {
    let (high, low) = ((character / 256) as u8, (character % 256) as u8);
    write!(f, "\\u{high:02x}{low:02x}")
}
