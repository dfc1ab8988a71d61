// @generated from proved source. It is not edited.

use crate::formats::uefi_path_text::form::argument::Argument;
use crate::formats::uefi_path_text::form::{Arguments, Parameter};
use crate::formats::uefi_path_text::parse::cut::{cut, next_text, start_of};
use crate::formats::uefi_path_text::parse::data::GREATEST_DATA;

/// The greatest number of characters of a serial number, which has two bytes a character and follows
/// six bytes.
const GREATEST_SERIAL_NUMBER: usize = (GREATEST_DATA - 6) / 2;

/// Returns the offset from which on a node is too long, by the texts of its arguments, which end at
/// the offset `end`; or `end`, if it isn't too long. The texts may be wrong.
#[inline]
pub(crate) fn excess(arguments: &Arguments, texts: Option<&[u8]>, end: usize) -> usize {
    match arguments {
        Arguments::Listed(parameters, _) => listed_excess(parameters, texts, end, 0),
        Arguments::Repeated(prefix, kind) => repeated_excess(*kind, texts, end, prefix.len()),
    }
}

/// The same of arguments that are listed, whose texts before have so many bytes.
#[inline]
fn listed_excess(parameters: &[Parameter], texts: Option<&[u8]>, end: usize, before: usize) -> usize {
    let start = start_of(texts, end);
    let Some((parameter, others)) = parameters.split_first() else {
        return end;
    };
    let (text, rest) = next_text(texts);
    if let Some(offset) = text_excess(parameter.argument, text, before) {
        return start + offset;
    }
    let length = match parameter.argument {
        Argument::Text(_) | Argument::Name(_) => text.len(),
        _ => 0,
    };
    listed_excess(others, rest, end, before.saturating_add(length))
}

/// Returns the offset from which on the text of an argument is too long, if it is. The texts before
/// have so many bytes.
#[inline]
fn text_excess(argument: Argument, text: &[u8], before: usize) -> Option<usize> {
    let room = match argument {
        Argument::Text(most) | Argument::Name(most) => most.saturating_sub(before),
        Argument::Quoted => 1 + GREATEST_SERIAL_NUMBER,
        _ => return None,
    };
    match (argument, text.get(room)?) {
        (Argument::Quoted, b'"') => None,
        _ => Some(room),
    }
}

/// The same of arguments of a kind, which follow so many bytes.
#[inline]
fn repeated_excess(kind: Argument, texts: Option<&[u8]>, end: usize, before: usize) -> usize {
    let mut rest = texts;
    let mut size = before;
    // All values of the kind have the same length. A text that isn't one has the length of the last.
    let mut length = 0;
    while let Some(parts) = rest {
        let (text, others) = cut(parts, b',');
        if let Ok(value) = kind.read(text) {
            length = value.len();
        }
        size = size.saturating_add(length);
        if size > GREATEST_DATA {
            return (end - parts.len()).saturating_sub(1);
        }
        rest = others;
    }
    end
}
