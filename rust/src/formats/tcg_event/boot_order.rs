// @generated from proved source. It is not edited.

use crate::formats::uefi_base::{UnalignedSlice, UnalignedSliceIter};

/// The order in which boot options are tried (UEFI 2.10, 3.3, `BootOrder`): the value of the
/// variables `BootOrder`, `DriverOrder` and `SysPrepOrder`.
///
/// | offset | bytes | field |
/// |---|---|---|
/// | 2 i | 2 | number of option i, little-endian: `0x0001` names the variable `Boot0001` |
///
/// A view: it borrows the bytes that it was read from.
#[derive(Clone, Copy, Debug)]
pub struct BootOrder<'a> {
    numbers: UnalignedSlice<'a>,
}

impl<'a> BootOrder<'a> {
    /// Returns the order that the bytes are, or `None` if their length is odd.
    #[must_use]
    #[inline]
    pub fn read(bytes: &'a [u8]) -> Option<BootOrder<'a>> {
        if bytes.len() % 2 != 0 {
            return None;
        }
        Some(BootOrder {
            numbers: UnalignedSlice::new(bytes),
        })
    }

    /// Returns the numbers, which may be asked for by their index.
    #[must_use]
    #[inline]
    pub fn numbers(&self) -> UnalignedSlice<'a> {
        self.numbers
    }

    /// Returns an iterator over the numbers, in order.
    #[must_use]
    #[inline]
    pub fn iter(&self) -> UnalignedSliceIter<'a> {
        self.numbers.iter()
    }
}
