// @generated from proved source. It is not edited.

use crate::formats::uefi_path_text::form::argument::Argument;
use crate::formats::uefi_path_text::write::bytes::{after, front};
use core::fmt;

/// Returns how many values of an argument bytes have.
#[inline]
pub(crate) fn repeated_count(argument: Argument, rest: &[u8]) -> usize {
    let size = argument.value_size(rest);
    rest.len().checked_div(size).unwrap_or(0)
}

/// Returns whether bytes are so many values that have texts.
#[inline]
fn are_values(argument: Argument, count: usize, rest: &[u8]) -> bool {
    if count == 0 {
        return rest.is_empty();
    }
    let size = argument.value_size(rest);
    argument.can_show(front(rest, size)) && are_values(argument, count - 1, after(rest, size))
}

/// Returns whether bytes are values that have texts, one or more.
#[inline]
pub(crate) fn are_repeated(argument: Argument, rest: &[u8]) -> bool {
    let count = repeated_count(argument, rest);
    count != 0 && are_values(argument, count, rest)
}

/// Writes so many values, with a mark before the first and commas between them, and the closing
/// parenthesis.
#[inline]
pub(crate) fn write_values(
    f: &mut fmt::Formatter<'_>,
    argument: Argument,
    count: usize,
    rest: &[u8],
    mark: &str,
) -> fmt::Result {
    if count == 0 {
        return f.write_str(")");
    }
    let size = argument.value_size(rest);
    f.write_str(mark)?;
    argument.write_value(f, front(rest, size))?;
    write_values(f, argument, count - 1, after(rest, size), ",")
}
