// @generated from proved source. It is not edited.

use crate::formats::uefi_base::little_endian::{u32_at, u64_at};
use crate::formats::uefi_tcg::UintnSize;

/// Returns the `UINTN` at `offset`.
#[inline]
pub(crate) fn uintn_at(bytes: &[u8], offset: usize, size: UintnSize) -> u64 {
    match size {
        UintnSize::Four => u64::from(u32_at(bytes, offset)),
        UintnSize::Eight => u64_at(bytes, offset),
    }
}
