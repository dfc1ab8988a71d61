// @generated from proved source. It is not edited.

use crate::support::fallible::*;

use crate::audit_text::words::printed::printed_text;
use crate::shown::ShownName;
use crate::support::alloc::AllocError;

/// How many bytes a line has.
const LINE_LENGTH: usize = 32;

/// Appends `: ` and the text that bytes are, if all of it prints, or the bytes in hex, 32 a line.
pub(crate) fn push_bytes(text: &mut String, bytes: &[u8]) -> Result<(), AllocError> {
    match printed_text(bytes)? {
        Some(printed) => {
            let printed = ShownName(printed.as_str());
            fallible_writeln!(text, ": {printed}")
        }
        None => {
            text.fallible_push_str("\n")?;
            push_hex_lines(text, bytes)
        }
    }
}

/// Appends bytes in hex, 32 a line.
fn push_hex_lines(text: &mut String, bytes: &[u8]) -> Result<(), AllocError> {
    let mut rest = bytes;
    while rest.len() > LINE_LENGTH {
        let (line, after) = rest.split_at(LINE_LENGTH);
        push_hex_line(text, line)?;
        rest = after;
    }
    push_hex_line(text, rest)
}

/// Appends a line of bytes in hex.
fn push_hex_line(text: &mut String, bytes: &[u8]) -> Result<(), AllocError> {
    let digits = crate::hex::encode(bytes)?;
    fallible_writeln!(text, "    {digits}")
}
