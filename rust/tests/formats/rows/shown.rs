// @generated from proved source. It is not edited.

use crate::support::fallible::*;

use crate::support::alloc::AllocError;

/// Where in the text of a value a character is.
#[derive(Clone, Copy, Debug)]
enum Place {
    /// In the value itself, after this character.
    Value(char),
    /// In a number in hex, of which this was read.
    Hex(u64),
    /// In a text.
    Text,
    /// After a backslash in a text.
    EscapedText,
    /// In bytes.
    Bytes,
    /// After a backslash in bytes.
    EscapedByte,
    /// In the digits of a byte in bytes, of which this was read, if any was.
    ByteDigits(Option<u32>),
    /// In digits.
    Digits,
}

/// Returns the text of a value as `Debug` prints it: each number in decimal digits, `b"..."` as a
/// list of them, `x"..."` without spaces.
pub(crate) fn shown(value: &str) -> Result<String, AllocError> {
    let mut text = String::new();
    let mut place = Place::Value(' ');
    for character in value.chars() {
        place = match place {
            Place::Value(last) => after_value(&mut text, last, character)?,
            Place::Hex(number) => after_hex(&mut text, number, character)?,
            Place::Text => after_text(&mut text, character)?,
            Place::EscapedText => {
                text.fallible_push(character)?;
                Place::Text
            }
            Place::Bytes => after_bytes(&mut text, character)?,
            Place::EscapedByte => after_escape(&mut text, character)?,
            Place::ByteDigits(first) => after_byte_digit(&mut text, first, character)?,
            Place::Digits => after_digits(&mut text, character)?,
        };
    }
    if let Place::Hex(number) = place {
        fallible_write!(text, "{number}")?;
    }
    Ok(text)
}

/// Adds a character of a value itself.
fn after_value(text: &mut String, last: char, character: char) -> Result<Place, AllocError> {
    if last == '0' && character == 'x' {
        let _ = text.pop();
        return Ok(Place::Hex(0));
    }
    if last == 'b' && character == '"' {
        let _ = text.pop();
        text.fallible_push('[')?;
        return Ok(Place::Bytes);
    }
    text.fallible_push(character)?;
    Ok(match (last, character) {
        ('x', '"') => Place::Digits,
        (_, '"') => Place::Text,
        _ => Place::Value(character),
    })
}

/// Adds a number in hex, where it ends, and the character after it.
fn after_hex(text: &mut String, number: u64, character: char) -> Result<Place, AllocError> {
    if let Some(digit) = character.to_digit(16) {
        let digit = u64::from(digit);
        return Ok(Place::Hex(number.saturating_mul(16).saturating_add(digit)));
    }
    fallible_write!(text, "{number}")?;
    text.fallible_push(character)?;
    Ok(Place::Value(character))
}

/// Adds a character of a text.
fn after_text(text: &mut String, character: char) -> Result<Place, AllocError> {
    text.fallible_push(character)?;
    Ok(match character {
        '"' => Place::Value('"'),
        '\\' => Place::EscapedText,
        _ => Place::Text,
    })
}

/// Adds a byte, or ends the list of them.
fn after_bytes(text: &mut String, character: char) -> Result<Place, AllocError> {
    match character {
        '"' => {
            text.fallible_push(']')?;
            Ok(Place::Value(']'))
        }
        '\\' => Ok(Place::EscapedByte),
        _ => with_byte(text, u32::from(character)),
    }
}

/// Adds the byte that follows a backslash, or begins its digits.
fn after_escape(text: &mut String, character: char) -> Result<Place, AllocError> {
    match character {
        'x' => Ok(Place::ByteDigits(None)),
        '0' => with_byte(text, 0),
        'n' => with_byte(text, 10),
        _ => with_byte(text, u32::from(character)),
    }
}

/// Adds the byte of two hex digits at the second one.
fn after_byte_digit(
    text: &mut String,
    first: Option<u32>,
    character: char,
) -> Result<Place, AllocError> {
    let digit = character.to_digit(16).unwrap_or(0);
    match first {
        None => Ok(Place::ByteDigits(Some(digit))),
        Some(first) => with_byte(text, first.saturating_mul(16).saturating_add(digit)),
    }
}

/// Adds a byte to a list of them.
fn with_byte(text: &mut String, byte: u32) -> Result<Place, AllocError> {
    if !text.as_str().ends_with("[") {
        text.fallible_push_str(", ")?;
    }
    fallible_write!(text, "{byte}")?;
    Ok(Place::Bytes)
}

/// Adds a digit, or ends them.
fn after_digits(text: &mut String, character: char) -> Result<Place, AllocError> {
    if character != ' ' {
        text.fallible_push(character)?;
    }
    Ok(if character == '"' {
        Place::Value('"')
    } else {
        Place::Digits
    })
}
