// @generated from proved source. It is not edited.

//! Arguments that are all of a kind.

use crate::formats::uefi_path_text::form::argument::Argument;
use crate::formats::uefi_path_text::parse::cut::cut;
use crate::formats::uefi_path_text::parse::data::{GREATEST_DATA, put_value, value_of};

/// Returns the length of all values, or `None` if no node has so many bytes.
#[inline]
pub(crate) fn repeated_len(kind: Argument, texts: Option<&[u8]>) -> Option<usize> {
    let mut rest = texts;
    let mut size = 0;
    while let Some(parts) = rest {
        let (text, others) = cut(parts, b',');
        let more = kind.value_len(text);
        if more > GREATEST_DATA - size {
            return None;
        }
        size += more;
        rest = others;
    }
    Some(size)
}

/// Writes all values at an offset.
#[inline]
pub(crate) fn put_repeated(buffer: &mut [u8], offset: usize, kind: Argument, texts: Option<&[u8]>) {
    let mut rest = texts;
    let mut end = offset;
    while let Some(parts) = rest {
        let (text, others) = cut(parts, b',');
        let value = value_of(kind, text);
        put_value(buffer, end, &value);
        end += value.len();
        rest = others;
    }
}
