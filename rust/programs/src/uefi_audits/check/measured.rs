// @generated from proved source. It is not edited.

//! What was measured, in the data of an event.

use crate::support::fallible::*;

use crate::support::alloc::AllocError;

/// Returns the data without their closing NUL; `None` if they have none.
pub(super) fn without_nul(bytes: &[u8]) -> Option<&[u8]> {
    bytes.strip_suffix(&[0])
}

/// Returns the command in the data of an event, between what GRUB writes before it and the closing
/// NUL.
pub(super) fn command_in(bytes: &[u8]) -> Option<&[u8]> {
    let text = without_nul(bytes)?;
    if let Some(command) = text.strip_prefix(b"grub_cmd: ") {
        return Some(command);
    }
    if let Some(command) = text.strip_prefix(b"kernel_cmdline: ") {
        return Some(command);
    }
    text.strip_prefix(b"module_cmdline: ")
}

/// Returns the bytes whose units, of UTF-16, the data are; `None` if a unit is 256 or more, or the
/// data have no even length.
pub(super) fn narrowed(
    units: &[u8],
) -> Result<Option<Vec<u8>>, AllocError> {
    let mut bytes = Vec::new();
    let mut rest = units;
    while let Some((byte, after)) = split_unit(rest) {
        bytes.fallible_push(byte)?;
        rest = after;
    }
    if rest.is_empty() {
        return Ok(Some(bytes));
    }
    Ok(None)
}

/// Returns the first unit of a text of UTF-16, if it is below 256, and the units after it.
fn split_unit(units: &[u8]) -> Option<(u8, &[u8])> {
    match units {
        [byte, 0, after @ ..] => Some((*byte, after)),
        _ => None,
    }
}
