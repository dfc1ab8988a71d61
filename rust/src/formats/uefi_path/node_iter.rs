// @generated from proved source. It is not edited.

use crate::formats::uefi_path::node::DevicePathNode;
use crate::formats::uefi_path::walk::{StopCondition, split_node};
use core::iter::FusedIterator;

/// An iterator over the nodes of a path or of an instance, in order, without the last one.
///
/// Each node lives as long as the source bytes, and may outlive the iterator. After the last node
/// the iterator returns `None` forever.
#[derive(Clone, Copy)]
pub struct DevicePathNodeIterator<'a> {
    rest: &'a [u8],
    stop: StopCondition,
}

impl core::fmt::Debug for DevicePathNodeIterator<'_> {
    fn fmt(&self, f: &mut core::fmt::Formatter<'_>) -> core::fmt::Result {
        f.debug_struct("DevicePathNodeIterator")
            .field("rest", &crate::support::debug::Bytes(self.rest))
            .field("stop", &self.stop)
            .finish()
    }
}

impl<'a> DevicePathNodeIterator<'a> {
    /// Returns an iterator over the nodes in `rest`, up to the one at which the walk stops.
    #[inline]
    pub(crate) fn new(rest: &'a [u8], stop: StopCondition) -> DevicePathNodeIterator<'a> {
        DevicePathNodeIterator { rest, stop }
    }
}

impl<'a> Iterator for DevicePathNodeIterator<'a> {
    type Item = DevicePathNode<'a>;

    #[inline]
    fn next(&mut self) -> Option<DevicePathNode<'a>> {
        let (node, after) = split_node(self.rest).ok()?;
        if self.stop.stops_at(&node) {
            return None;
        }
        *self = DevicePathNodeIterator::new(after, self.stop);
        Some(node)
    }
}

impl<'a> FusedIterator for DevicePathNodeIterator<'a> {}
