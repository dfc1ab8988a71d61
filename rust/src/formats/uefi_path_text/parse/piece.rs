// @generated from proved source. It is not edited.

use crate::formats::uefi_path_text::parse::error::FromTextError;
use crate::formats::uefi_path_text::parse::fault::{Fault, FaultKind};
use crate::formats::uefi_path_text::parse::file_name::{FileName, check_name, data_len, first_excess};
use crate::formats::uefi_path_text::parse::reading::{Reading, read_call};
use crate::formats::uefi_path_text::parse::text_node::TextNode;

/// Reads the piece at the start of a text, which is at an offset: a call or a file's name. Returns
/// the node and what follows.
#[inline]
pub(crate) fn read_piece(text: &str, offset: usize) -> Result<(TextNode<'_>, &str), FromTextError> {
    if !reads_as_node(text) {
        return read_name_piece(text, offset);
    }
    match split_at_mark(text, '(') {
        Some((name, after)) => read_call_piece(name, after, offset),
        None => unreachable!(),
    }
}

/// Returns whether a text begins with a name that a type of nodes may have, and a parenthesis.
#[inline]
fn reads_as_node(text: &str) -> bool {
    text.as_bytes().iter().find(|c| !is_node_byte(**c)) == Some(&b'(')
}

/// Returns whether a type of nodes may have the character in its name.
#[inline]
fn is_node_byte(c: u8) -> bool {
    c.is_ascii_alphanumeric() || c == b'-'
}

/// Reads a call whose name is at an offset, and whose arguments begin after the parenthesis.
#[inline]
fn read_call_piece<'a>(
    name: &str,
    after: &'a str,
    offset: usize,
) -> Result<(TextNode<'a>, &'a str), FromTextError> {
    let Some((arguments, rest)) = split_at_mark(after, ')') else {
        return Err(unclosed_error(name, after, offset));
    };
    match read_closed(name, arguments, offset) {
        Ok(node) => Ok((node, rest)),
        Err(error) => Err(error),
    }
}

/// Reads a call whose name is at an offset.
#[inline]
fn read_closed<'a>(
    name: &str,
    arguments: &'a str,
    offset: usize,
) -> Result<TextNode<'a>, FromTextError> {
    let opening = offset + name.len();
    match read_call(name.as_bytes(), arguments.as_bytes()) {
        Reading::Unknown => Err(unknown_error(name, offset)),
        Reading::Wrong(fault) => Err(error_at(fault, opening + 1)),
        Reading::Node(call) => Ok(TextNode::Call(call)),
    }
}

/// Returns the error of a call whose name is at an offset, and whose arguments no parenthesis
/// closes.
#[inline]
fn unclosed_error(name: &str, arguments: &str, offset: usize) -> FromTextError {
    let opening = offset + name.len();
    let end = opening + 1 + arguments.len();
    match read_call(name.as_bytes(), arguments.as_bytes()) {
        Reading::Unknown => unknown_error(name, offset),
        Reading::Wrong(fault) => error_before(fault, opening + 1, end),
        Reading::Node(_) => FromTextError::Missing(end),
    }
}

/// Returns the error of arguments that begin at an offset, if their fault is before their end.
#[inline]
fn error_before(fault: Fault, start: usize, end: usize) -> FromTextError {
    if start + fault.offset < end {
        error_at(fault, start)
    } else {
        FromTextError::Missing(end)
    }
}

/// Returns the error of arguments that begin at an offset.
#[inline]
fn error_at(fault: Fault, start: usize) -> FromTextError {
    let offset = start + fault.offset;
    match fault.kind {
        FaultKind::Argument => FromTextError::Argument(offset),
        FaultKind::Missing => FromTextError::Missing(offset),
        FaultKind::TooLong => FromTextError::TooLong(offset),
    }
}

/// Reads the name of a file at the start of a text, which is at an offset.
#[inline]
fn read_name_piece(text: &str, offset: usize) -> Result<(TextNode<'_>, &str), FromTextError> {
    let (name, rest) = split_name(text);
    if name.is_empty() {
        return Err(FromTextError::Missing(offset));
    }
    if let Err(at) = check_name(name) {
        return Err(name_error(name, at, offset));
    }
    match data_len(name) {
        Some(_) => Ok((TextNode::FileName(FileName::new(name)), rest)),
        None => Err(FromTextError::TooLong(offset + first_excess(name))),
    }
}

/// Returns the error of a name that is at an offset and has a character that no name may have.
#[inline]
fn name_error(name: &str, at: usize, offset: usize) -> FromTextError {
    let excess = first_excess(name);
    if excess < at {
        FromTextError::TooLong(offset + excess)
    } else {
        FromTextError::Argument(offset + at)
    }
}

/// Returns the error of a name that is at an offset and before a parenthesis, and that no form has.
#[inline]
fn unknown_error(name: &str, offset: usize) -> FromTextError {
    let excess = first_excess(name);
    if excess < name.len() {
        FromTextError::TooLong(offset + excess)
    } else {
        FromTextError::UnknownNode(offset + name.len())
    }
}

/// Splits a text before the first slash or comma.
#[inline]
fn split_name(text: &str) -> (&str, &str) {
    let name = before(text, first_mark(text));
    match text.strip_prefix(name) {
        Some(rest) => (name, rest),
        None => unreachable!(),
    }
}

/// Returns the first slash or comma of a text; a comma, if it has neither.
#[inline]
fn first_mark(text: &str) -> char {
    if text.as_bytes().iter().find(|c| is_mark(**c)) == Some(&b'/') {
        '/'
    } else {
        ','
    }
}

/// Returns whether a name ends before the character.
#[inline]
fn is_mark(c: u8) -> bool {
    c == b'/' || c == b','
}

/// Returns a text up to a character.
#[inline]
fn before(text: &str, mark: char) -> &str {
    match text.split_once(mark) {
        Some((front, _)) => front,
        None => text,
    }
}

/// Splits a text at a character; returns `None` if it hasn't one.
#[inline]
fn split_at_mark(text: &str, mark: char) -> Option<(&str, &str)> {
    text.split_once(mark)
}
