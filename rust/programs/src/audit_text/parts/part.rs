// @generated from proved source. It is not edited.

use crate::support::fallible::*;

use crate::support::alloc::AllocError;
use uefi_formats::Guid;

/// Parts, in the order of the lines of an event's block.
pub(crate) type PartsResult<'a> = Result<Vec<Part<'a>>, AllocError>;

/// A named part of what data say.
#[derive(Debug)]
pub(crate) struct Part<'a> {
    /// Its key in JSON; `None` for a part of the block alone.
    pub(crate) key: Option<&'static str>,
    /// What is before its value in the block; `None` for a part of JSON alone.
    pub(crate) words: Option<&'static str>,
    /// Its value.
    pub(crate) value: PartValue<'a>,
}

/// The value of a part.
///
/// | value | in JSON | in the block |
/// |---|---|---|
/// | a number, also in hex | the number | its digits, in hex after `0x` |
/// | the number of a boot option | the number | ` Boot` and four hex digits |
/// | a GUID | its text | its text |
/// | a text of the log | the text | as [`ShownName`](crate::shown::ShownName) displays it |
/// | a plain text, such as hex digits | the text | the text |
/// | bytes | their hex digits | `: ` and their text, if all of it prints; else lines of hex digits |
#[derive(Debug)]
pub(crate) enum PartValue<'a> {
    /// No value: `null`, and nothing in the block.
    Empty,
    /// A number.
    Decimal(u64),
    /// A number that the block has in hex.
    Hexadecimal(u64),
    /// The number of a boot option.
    BootNumber(u16),
    /// A GUID.
    Guid(Guid),
    /// A text of the log.
    Text(String),
    /// A text that is shown as it is.
    Plain(String),
    /// Bytes.
    Bytes(&'a [u8]),
    /// An object, of these parts.
    Object(Vec<Part<'a>>),
    /// A list of values.
    List(Vec<PartValue<'a>>),
}

impl<'a> Part<'a> {
    /// Returns a part of JSON and of the block.
    pub(crate) fn new(key: &'static str, words: &'static str, value: PartValue<'a>) -> Part<'a> {
        Part {
            key: Some(key),
            words: Some(words),
            value,
        }
    }

    /// Returns a part of JSON alone.
    pub(crate) fn in_json(key: &'static str, value: PartValue<'a>) -> Part<'a> {
        Part {
            key: Some(key),
            words: None,
            value,
        }
    }

    /// Returns a part of the block alone.
    pub(crate) fn in_block(words: &'static str, value: PartValue<'a>) -> Part<'a> {
        Part {
            key: None,
            words: Some(words),
            value,
        }
    }

    /// Returns words of the block, with no value after them.
    pub(crate) fn words(words: &'static str) -> Part<'a> {
        Part::in_block(words, PartValue::Empty)
    }

    /// Returns bytes, which the block has only if there are any.
    pub(crate) fn bytes(key: &'static str, words: &'static str, bytes: &'a [u8]) -> Part<'a> {
        Part {
            key: Some(key),
            words: if_any(words, bytes),
            value: PartValue::Bytes(bytes),
        }
    }

    /// Returns bytes of the block alone, if there are any.
    pub(crate) fn bytes_in_block(words: &'static str, bytes: &'a [u8]) -> Part<'a> {
        Part {
            key: None,
            words: if_any(words, bytes),
            value: PartValue::Bytes(bytes),
        }
    }

    /// Returns the bytes after what is read, if there are any.
    pub(crate) fn rest(bytes: &'a [u8]) -> Part<'a> {
        Part {
            key: if_any("rest", bytes),
            words: if_any("  trailing bytes", bytes),
            value: PartValue::Bytes(bytes),
        }
    }

    /// Returns a part of JSON alone: a text, if there is one.
    pub(crate) fn text_in_json(key: &'static str, text: Option<String>) -> Part<'a> {
        match text {
            Some(text) => Part::in_json(key, PartValue::Text(text)),
            None => Part {
                key: None,
                words: None,
                value: PartValue::Empty,
            },
        }
    }
}

/// Returns words, if there are bytes.
fn if_any(words: &'static str, bytes: &[u8]) -> Option<&'static str> {
    if bytes.is_empty() { None } else { Some(words) }
}

/// Returns parts, and others after them.
pub(crate) fn joined<'a>(mut parts: Vec<Part<'a>>, others: Vec<Part<'a>>) -> PartsResult<'a> {
    for part in others {
        parts.fallible_push(part)?;
    }
    Ok(parts)
}
