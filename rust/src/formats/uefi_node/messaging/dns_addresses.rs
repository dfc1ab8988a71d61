// @generated from proved source. It is not edited.

use crate::formats::uefi_node::read::bytes_at;

/// Addresses of DNS servers, 16 bytes each (UEFI 2.10, 10.3.4.30).
///
/// A view: it borrows the bytes.
#[derive(Clone, Copy, PartialEq, Eq)]
pub struct DnsAddresses<'a> {
    bytes: &'a [u8],
}

impl core::fmt::Debug for DnsAddresses<'_> {
    fn fmt(&self, f: &mut core::fmt::Formatter<'_>) -> core::fmt::Result {
        f.debug_struct("DnsAddresses")
            .field("bytes", &crate::support::debug::Bytes(self.bytes))
            .finish()
    }
}

impl<'a> DnsAddresses<'a> {
    /// Returns the addresses in all of `bytes`, or `None` if there is a part of one.
    #[must_use]
    #[inline]
    pub fn new(bytes: &'a [u8]) -> Option<DnsAddresses<'a>> {
        if bytes.len() % 16 != 0 {
            return None;
        }
        Some(DnsAddresses::new_unchecked(bytes))
    }

    /// Returns the addresses in bytes that are known to be whole ones.
    #[inline]
    pub(crate) fn new_unchecked(bytes: &'a [u8]) -> DnsAddresses<'a> {
        DnsAddresses { bytes }
    }

    /// Returns the number of addresses.
    #[must_use]
    #[inline]
    pub fn count(&self) -> usize {
        self.bytes.len() / 16
    }

    /// Returns the address at `index`, or `None` if there are at most `index` addresses. An IPv4
    /// address is in the first four bytes.
    #[must_use]
    #[inline]
    pub fn get(&self, index: usize) -> Option<[u8; 16]> {
        if index < self.count() {
            Some(bytes_at(self.bytes, 16 * index))
        } else {
            None
        }
    }

    /// Returns the bytes of the addresses.
    #[must_use]
    #[inline]
    pub fn as_bytes(&self) -> &'a [u8] {
        self.bytes
    }
}
