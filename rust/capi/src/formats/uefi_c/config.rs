// @generated from proved source. It is not edited.

use core::mem::MaybeUninit;
use crate::bytes::Bytes;

use crate::formats::uefi_c::cursor::bytes_from;
use crate::formats::uefi_c::status::{self, UefiStatus};
use crate::formats::uefi_hii::next_pair;

/// A key of a configuration text, and its value if it has one.
#[derive(Clone, Copy, Debug)]
#[repr(C)]
pub struct UefiPair<'a> {
    /// The key.
    pub key: Bytes<'a>,
    /// The value. Without one it has no meaning.
    pub value: Bytes<'a>,
    /// Whether there is a value.
    pub has_value: bool,
}

/// Reads the pair of a configuration text at the offset, and moves the offset to the next.
#[unsafe(no_mangle)]
pub extern "C" fn uefi_config_next_pair<'a>(
    text: Bytes<'a>,
    offset: &mut usize,
    out: &mut MaybeUninit<UefiPair<'a>>,
) -> UefiStatus {
    let text = text.as_slice();
    let Some((pair, end)) = pair_at(text, *offset) else {
        return status::END;
    };
    out.write(pair);
    *offset = end;
    status::OK
}

/// Returns the pair of a configuration text at the offset, and the offset of the next.
#[inline]
fn pair_at(text: &[u8], offset: usize) -> Option<(UefiPair<'_>, usize)> {
    let ((key, value), rest) = next_pair(bytes_from(text, offset)?)?;
    Some((seen(key, value), text.len() - rest.len()))
}

/// Returns the pair of this key and this value.
#[inline]
fn seen<'a>(key: &'a [u8], value: Option<&'a [u8]>) -> UefiPair<'a> {
    match value {
        Some(value) => UefiPair {
            key: Bytes::new(key),
            value: Bytes::new(value),
            has_value: true,
        },
        None => UefiPair {
            key: Bytes::new(key),
            value: Bytes::new(&[]),
            has_value: false,
        },
    }
}
