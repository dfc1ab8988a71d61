// @generated from proved source. It is not edited.

use crate::formats::uefi_base::buffer::put;
use crate::formats::uefi_base::{CStr16, UnalignedSlice};

/// The description of a load option that is to be written, with the NUL that ends it.
///
/// Each description that was read can be written again: it may have units that [`CStr16`] refuses,
/// such as half of a surrogate pair.
#[derive(Clone, Copy, Debug)]
pub enum LoadOptionDescription<'a> {
    /// Text.
    Text(CStr16<'a>),
    /// Any units, of which the last is zero and no other is, such as
    /// [`LoadOption::description`](crate::formats::uefi_path::LoadOption::description) returns them.
    Units(UnalignedSlice<'a>),
}

impl<'a> LoadOptionDescription<'a> {
    /// Returns the number of units.
    #[inline]
    pub(crate) fn len(&self) -> usize {
        match self {
            LoadOptionDescription::Text(text) => text.as_u16_with_nul().len(),
            LoadOptionDescription::Units(units) => units.len(),
        }
    }

    /// Returns the unit at an index that is known to be in bounds.
    #[inline]
    fn unit(&self, index: usize) -> u16 {
        match self {
            LoadOptionDescription::Text(text) => text.as_u16_with_nul()[index],
            LoadOptionDescription::Units(units) => units.get(index).unwrap(),
        }
    }

    /// Returns whether the last unit is zero, and no other is.
    #[inline]
    pub(crate) fn ends_with_only_nul(&self) -> bool {
        for i in 0..self.len() {
            if self.unit(i) == 0 {
                return i + 1 == self.len();
            }
        }
        false
    }

    /// Copies the units into `buffer` at `offset`, two bytes each, little-endian.
    #[inline]
    pub(crate) fn put(&self, buffer: &mut [u8], offset: usize) {
        for i in 0..self.len() {
            put(buffer, offset + 2 * i, &self.unit(i).to_le_bytes());
        }
    }
}
