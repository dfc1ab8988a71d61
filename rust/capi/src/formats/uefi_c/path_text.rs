// @generated from proved source. It is not edited.

//! Texts of paths and nodes, and paths of texts (UEFI 2.10, 10.6).

use core::mem::MaybeUninit;
use crate::bytes::{Buffer, Bytes};

use crate::formats::uefi_c::node_fault::node_fault;
use crate::formats::uefi_c::status::{self, UefiStatus};
use crate::formats::uefi_c::text_writer::put_text;
use crate::formats::uefi_path::{DevicePath, DevicePathNode};
use crate::formats::uefi_path_text::{
    AllowShortcuts, DisplayOnly, FromTextError, node_to_text, to_text, write_from_text,
};

/// The flag of a text for display alone.
const DISPLAY_ONLY: u32 = 1;

/// The flag of a text in which nodes of some vendors have forms of their own.
const ALLOW_SHORTCUTS: u32 = 2;

/// Writes the text of the path that `path` begins with to the beginning of the buffer, in UTF-8 and
/// without a NUL, and sets `size` to its length. The bytes after it stay as they were.
///
/// Of the flags, 1 is for a text for display alone, which may lack parts of nodes, and 2 for forms
/// of some vendors' nodes such as `VenVt100()`; the other bits mean nothing.
///
/// If the buffer is too small, or `path` begins with no path, all bytes stay as they were, and `size`
/// is the length that the buffer needs, or 0. A text whose length is no `usize` is too long.
#[unsafe(no_mangle)]
pub extern "C" fn uefi_path_text(
    buffer: Buffer<'_>,
    path: Bytes<'_>,
    flags: u32,
    size: &mut MaybeUninit<usize>,
) -> UefiStatus {
    let buffer = buffer.into_slice();
    let path = path.as_slice();
    let Ok(path) = DevicePath::try_from(path) else {
        size.write(0);
        return status::NO_PATH;
    };
    let text = to_text(path, display_only(flags), allow_shortcuts(flags));
    let (status, needed) = put_text(buffer, text);
    size.write(needed);
    status
}

/// Writes the text of the node that `node` begins with to the beginning of the buffer, in UTF-8 and
/// without a NUL, and sets `size` to its length. The bytes after it stay as they were.
///
/// The flags, and what else it returns, are those of [`uefi_path_text`], but for the fault of the
/// node where there is none: the bytes end there, they cut it, or it states a length below 4.
#[unsafe(no_mangle)]
pub extern "C" fn uefi_node_text(
    buffer: Buffer<'_>,
    node: Bytes<'_>,
    flags: u32,
    size: &mut MaybeUninit<usize>,
) -> UefiStatus {
    let buffer = buffer.into_slice();
    let node = node.as_slice();
    let Ok(node) = DevicePathNode::try_from(node) else {
        size.write(0);
        return node_fault(node);
    };
    let text = node_to_text(node, display_only(flags), allow_shortcuts(flags));
    let (status, needed) = put_text(buffer, text);
    size.write(needed);
    status
}

/// Returns whether a text is for display alone.
#[inline]
fn display_only(flags: u32) -> DisplayOnly {
    DisplayOnly(flags & DISPLAY_ONLY != 0)
}

/// Returns whether nodes of some vendors have forms of their own.
#[inline]
fn allow_shortcuts(flags: u32) -> AllowShortcuts {
    AllowShortcuts(flags & ALLOW_SHORTCUTS != 0)
}

/// Writes the path whose text `text` is to the beginning of the buffer, and sets `size` to its length.
/// The bytes after it stay as they were.
///
/// If it returns another status than success, all bytes stay as they were, and `size` is the length
/// that the buffer needs, or 0. Where the text is that of no path, `fault_at` is set to the offset
/// of the fault: no node has the name before it, the character there isn't expected, something is
/// missing there, or a node that begins there is too long. Else it stays as it was.
#[unsafe(no_mangle)]
pub extern "C" fn uefi_path_from_text(
    buffer: Buffer<'_>,
    text: Bytes<'_>,
    fault_at: &mut MaybeUninit<usize>,
    size: &mut MaybeUninit<usize>,
) -> UefiStatus {
    let buffer = buffer.into_slice();
    let text = text.as_slice();
    size.write(0);
    let Ok(text) = core::str::from_utf8(text) else {
        return status::NOT_TEXT;
    };
    match write_from_text(buffer, text) {
        Ok(length) => {
            size.write(length);
            status::OK
        }
        Err(FromTextError::Buffer(needed)) => {
            size.write(needed);
            status::BUFFER_TOO_SMALL
        }
        Err(FromTextError::UnknownNode(offset)) => {
            fault_at.write(offset);
            status::UNKNOWN_NODE
        }
        Err(FromTextError::Argument(offset)) => {
            fault_at.write(offset);
            status::UNEXPECTED_CHARACTER
        }
        Err(FromTextError::Missing(offset)) => {
            fault_at.write(offset);
            status::MISSING_TEXT
        }
        Err(FromTextError::TooLong(offset)) => {
            fault_at.write(offset);
            status::TOO_LONG
        }
        Err(FromTextError::Memory) => unreachable!(),
    }
}
