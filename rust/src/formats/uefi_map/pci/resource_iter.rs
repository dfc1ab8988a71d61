// @generated from proved source. It is not edited.

use super::resource::{QwordAddressSpaceDescriptor, RECORD_LENGTH};
use core::iter::{ExactSizeIterator, FusedIterator};

/// The resources of a list, in order, each by value.
///
/// After the last resource the iterator stays ended. Its [`len`](ExactSizeIterator::len) and
/// [`size_hint`](Iterator::size_hint) are exact. It borrows the bytes that the list was read from.
#[derive(Clone, Copy)]
pub struct ResourceIter<'a> {
    rest: &'a [u8],
}

impl core::fmt::Debug for ResourceIter<'_> {
    fn fmt(&self, f: &mut core::fmt::Formatter<'_>) -> core::fmt::Result {
        f.debug_struct("ResourceIter")
            .field("rest", &crate::support::debug::Bytes(self.rest))
            .finish()
    }
}

impl<'a> ResourceIter<'a> {
    /// Returns the resources of whole records.
    #[inline]
    pub(super) fn new(rest: &'a [u8]) -> ResourceIter<'a> {
        ResourceIter { rest }
    }
}

impl<'a> Iterator for ResourceIter<'a> {
    type Item = QwordAddressSpaceDescriptor;

    #[inline]
    fn next(&mut self) -> Option<QwordAddressSpaceDescriptor> {
        let (record, rest) = self.rest.split_at_checked(RECORD_LENGTH)?;
        self.rest = rest;
        Some(QwordAddressSpaceDescriptor::in_record(record))
    }

    /// Returns the count of resources that are left, as both bounds.
    #[inline]
    fn size_hint(&self) -> (usize, Option<usize>) {
        let length = self.len();
        (length, Some(length))
    }
}

impl<'a> ExactSizeIterator for ResourceIter<'a> {
    /// Returns the count of resources that are left.
    #[inline]
    fn len(&self) -> usize {
        self.rest.len() / RECORD_LENGTH
    }
}

impl<'a> FusedIterator for ResourceIter<'a> {}
