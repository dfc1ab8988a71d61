// @generated from proved source. It is not edited.

use crate::formats::uefi_path::instance::DevicePathInstance;
use crate::formats::uefi_path::walk::{StopCondition, split_nodes};
use core::iter::FusedIterator;

/// An iterator over the instances of a path, in order.
///
/// Each instance lives as long as the source bytes, and may outlive the iterator. After the last
/// instance the iterator returns `None` forever.
#[derive(Clone, Copy)]
pub struct DevicePathInstanceIterator<'a> {
    rest: &'a [u8],
}

impl core::fmt::Debug for DevicePathInstanceIterator<'_> {
    fn fmt(&self, f: &mut core::fmt::Formatter<'_>) -> core::fmt::Result {
        f.debug_struct("DevicePathInstanceIterator")
            .field("rest", &crate::support::debug::Bytes(self.rest))
            .finish()
    }
}

impl<'a> DevicePathInstanceIterator<'a> {
    /// Returns an iterator over the instances in `rest`.
    #[inline]
    pub(crate) fn new(rest: &'a [u8]) -> DevicePathInstanceIterator<'a> {
        DevicePathInstanceIterator { rest }
    }
}

impl<'a> Iterator for DevicePathInstanceIterator<'a> {
    type Item = DevicePathInstance<'a>;

    #[inline]
    fn next(&mut self) -> Option<DevicePathInstance<'a>> {
        let (instance, after) = split_nodes(self.rest, StopCondition::AnyEndNode).ok()?;
        *self = DevicePathInstanceIterator::new(after);
        Some(DevicePathInstance::new_unchecked(instance))
    }
}

impl<'a> FusedIterator for DevicePathInstanceIterator<'a> {}
