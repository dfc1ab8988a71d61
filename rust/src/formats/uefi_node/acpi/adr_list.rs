// @generated from proved source. It is not edited.

use crate::formats::uefi_base::little_endian::u32_at;

/// Addresses (`_ADR`) of ACPI objects, four bytes each: at least one (UEFI 2.10, 10.3.3.1).
///
/// A view: it borrows the bytes.
#[derive(Clone, Copy, PartialEq, Eq)]
pub struct AdrList<'a> {
    bytes: &'a [u8],
}

impl core::fmt::Debug for AdrList<'_> {
    fn fmt(&self, f: &mut core::fmt::Formatter<'_>) -> core::fmt::Result {
        f.debug_struct("AdrList")
            .field("bytes", &crate::support::debug::Bytes(self.bytes))
            .finish()
    }
}

impl<'a> AdrList<'a> {
    /// Returns the addresses in all of `bytes`, or `None` if there is none or a part of one.
    #[must_use]
    #[inline]
    pub fn new(bytes: &'a [u8]) -> Option<AdrList<'a>> {
        if bytes.is_empty() || bytes.len() % 4 != 0 {
            return None;
        }
        Some(AdrList::new_unchecked(bytes))
    }

    /// Returns the addresses in bytes that are known to be some.
    #[inline]
    pub(crate) fn new_unchecked(bytes: &'a [u8]) -> AdrList<'a> {
        AdrList { bytes }
    }

    /// Returns the number of addresses: at least 1.
    #[must_use]
    #[inline]
    pub fn count(&self) -> usize {
        self.bytes.len() / 4
    }

    /// Returns the address at `index`, or `None` if there are at most `index` addresses.
    #[must_use]
    #[inline]
    pub fn get(&self, index: usize) -> Option<u32> {
        if index < self.count() {
            Some(u32_at(self.bytes, 4 * index))
        } else {
            None
        }
    }

    /// Returns the bytes of the addresses.
    #[must_use]
    #[inline]
    pub fn as_bytes(&self) -> &'a [u8] {
        self.bytes
    }
}
