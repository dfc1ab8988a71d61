// @generated from proved source. It is not edited.

use crate::support::fallible::*;

use crate::serde_json::Value;
use crate::shown::{HexByte, is_control};
use crate::support::alloc::AllocError;

/// Returns the text of a value on one line, without spaces and without a line's end: each control
/// character in it is `\u` and four hex digits.
pub(crate) fn line_of(value: &Value) -> Result<String, AllocError> {
    let text = value.fallible_to_string()?;
    escaped(text)
}

/// Appends the line of a value, and a line break.
pub(crate) fn push_line(text: &mut String, value: &Value) -> Result<(), AllocError> {
    let line = line_of(value)?;
    fallible_writeln!(text, "{line}")
}

/// Returns whether a character is escaped.
fn is_escaped(character: char) -> bool {
    is_control(character)
}

/// Returns whether a text has a control character.
fn has_control(text: &str) -> bool {
    text.chars().any(is_escaped)
}

/// Returns a text of JSON, in which controls are in strings alone, with these escaped.
fn escaped(text: String) -> Result<String, AllocError> {
    if has_control(text.as_str()) {
        return each_escaped(text.as_str());
    }
    Ok(text)
}

/// Returns a text with each control escaped.
fn each_escaped(text: &str) -> Result<String, AllocError> {
    let mut line = String::new();
    for character in text.chars() {
        push_character(&mut line, character)?;
    }
    Ok(line)
}

/// Appends a character, or the escape of a control.
fn push_character(line: &mut String, character: char) -> Result<(), AllocError> {
    if is_control(character) {
        return push_escape(line, u32::from(character));
    }
    line.fallible_push(character)
}

/// Appends `\u` and four hex digits.
fn push_escape(line: &mut String, character: u32) -> Result<(), AllocError> {
    let high = HexByte((character / 256) as u8);
    let low = HexByte((character % 256) as u8);
    fallible_write!(line, "\\u{high}{low}")
}
