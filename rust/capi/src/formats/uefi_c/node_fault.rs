// @generated from proved source. It is not edited.

use crate::formats::uefi_c::status::{self, UefiStatus};
use crate::formats::uefi_base::little_endian::u16_at;

/// The length of a node's header.
const HEADER_LENGTH: usize = 4;

/// The offset of a node's length in its header.
const LENGTH_OFFSET: usize = 2;

/// Returns why the bytes begin with no node: they end, they cut it, or it states a length below 4.
#[inline]
pub(crate) fn node_fault(bytes: &[u8]) -> UefiStatus {
    if bytes.is_empty() {
        return status::NO_END;
    }
    if bytes.len() >= HEADER_LENGTH && usize::from(u16_at(bytes, LENGTH_OFFSET)) < HEADER_LENGTH {
        return status::SHORT_NODE;
    }
    status::CUT
}
