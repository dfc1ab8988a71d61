// @generated from proved source. It is not edited.

use super::descriptor::MemoryDescriptor;
use super::layout::DESCRIPTOR_LENGTH;
use super::meta::MemoryMapMeta;
use core::iter::{ExactSizeIterator, FusedIterator};

/// The descriptors of a memory map, in order, each by value.
///
/// After the last descriptor the iterator stays ended. Its [`len`](ExactSizeIterator::len) and
/// [`size_hint`](Iterator::size_hint) are exact. It borrows the map's buffer.
#[derive(Clone, Copy)]
pub struct MemoryMapIter<'a> {
    rest: &'a [u8],
    stride: usize,
}

impl core::fmt::Debug for MemoryMapIter<'_> {
    fn fmt(&self, f: &mut core::fmt::Formatter<'_>) -> core::fmt::Result {
        f.debug_struct("MemoryMapIter")
            .field("rest", &crate::support::debug::Bytes(self.rest))
            .field("stride", &self.stride)
            .finish()
    }
}

impl<'a> MemoryMapIter<'a> {
    /// Returns the descriptors of a map.
    #[inline]
    pub(crate) fn new(buffer: &'a [u8], meta: &MemoryMapMeta) -> MemoryMapIter<'a> {
        MemoryMapIter {
            rest: &buffer[..meta.map_size],
            stride: meta.desc_size,
        }
    }
}

impl<'a> Iterator for MemoryMapIter<'a> {
    type Item = MemoryDescriptor;

    #[inline]
    fn next(&mut self) -> Option<MemoryDescriptor> {
        let (first, _) = self.rest.split_at_checked(DESCRIPTOR_LENGTH)?;
        let (_, rest) = self.rest.split_at_checked(self.stride)?;
        self.rest = rest;
        Some(MemoryDescriptor::read(first))
    }

    /// Returns the count of descriptors that are left, as both bounds.
    #[inline]
    fn size_hint(&self) -> (usize, Option<usize>) {
        let length = self.len();
        (length, Some(length))
    }
}

impl<'a> ExactSizeIterator for MemoryMapIter<'a> {
    /// Returns the count of descriptors that are left.
    #[inline]
    fn len(&self) -> usize {
        self.rest.len() / self.stride
    }
}

impl<'a> FusedIterator for MemoryMapIter<'a> {}
