// @generated from proved source. It is not edited.

use super::descriptor::MemoryDescriptor;
use super::iter::MemoryMapIter;
use super::layout::{DESCRIPTOR_LENGTH, offset_of};
use super::meta::{MemoryMapKey, MemoryMapMeta};

/// A memory map (UEFI 2.10, 7.2 `EFI_BOOT_SERVICES.GetMemoryMap()`): a buffer that begins with the
/// map's descriptors, and what firmware says of it.
///
/// The offset of descriptor i is i times the stride, [`MemoryMapMeta::desc_size`]. The rest of each
/// stride, and the bytes after the map, have no meaning.
///
/// A type gives [`meta`](MemoryMap::meta) and [`buffer`](MemoryMap::buffer), and has the other
/// calls from here.
pub trait MemoryMap: crate::support::sealed::Sealed {
    /// Returns what firmware says of the map.
    #[must_use]
    fn meta(&self) -> MemoryMapMeta;

    /// Returns the key of the state of firmware's map that this one is of.
    #[must_use]
    #[inline]
    fn key(&self) -> MemoryMapKey {
        self.meta().map_key
    }

    /// Returns the count of descriptors.
    #[must_use]
    #[inline]
    fn len(&self) -> usize {
        self.meta().entry_count()
    }

    /// Returns whether there is no descriptor.
    #[must_use]
    #[inline]
    fn is_empty(&self) -> bool {
        self.len() == 0
    }

    /// Returns the descriptor at the index, or `None` if the index isn't below
    /// [`len`](MemoryMap::len).
    #[must_use]
    #[inline]
    fn get(&self, i: usize) -> Option<MemoryDescriptor> {
        if i < self.len() {
            Some(self.at(i))
        } else {
            None
        }
    }

    /// Returns the descriptor at an index that is below [`len`](MemoryMap::len).
    ///
    /// # Panics
    ///
    /// If `i` isn't below [`len`](MemoryMap::len).
    #[must_use]
    #[inline]
    fn at(&self, i: usize) -> MemoryDescriptor {
        assert!(i < self.len());
        let offset = offset_of(&self.meta(), i);
        MemoryDescriptor::read(&self.buffer()[offset..offset + DESCRIPTOR_LENGTH])
    }

    /// Returns the whole buffer.
    #[must_use]
    fn buffer(&self) -> &[u8];

    /// Returns the descriptors, in order.
    #[must_use]
    #[inline]
    fn entries(&self) -> MemoryMapIter<'_> {
        MemoryMapIter::new(self.buffer(), &self.meta())
    }

    /// Returns whether no descriptor begins at a lower physical address than the one before it.
    #[must_use]
    #[inline]
    fn is_sorted(&self) -> bool {
        self.entries().is_sorted_by_key(|entry| entry.phys_start)
    }
}

/// A memory map whose descriptors can be written.
///
/// A type gives [`buffer_mut`](MemoryMapMut::buffer_mut), and has the other calls from here.
pub trait MemoryMapMut: MemoryMap {
    /// Sets the descriptor at the index, and returns the one that was there before. If the index
    /// isn't below [`len`](MemoryMap::len), it returns `None`, and every byte stays as it was.
    ///
    /// It writes the forty bytes of the descriptor alone.
    #[inline]
    fn set(&mut self, i: usize, entry: MemoryDescriptor) -> Option<MemoryDescriptor> {
        let before = self.get(i)?;
        self.set_at(i, entry);
        Some(before)
    }

    /// Sets the descriptor at an index that is below [`len`](MemoryMap::len).
    ///
    /// It writes the forty bytes of the descriptor alone.
    ///
    /// # Panics
    ///
    /// If `i` isn't below [`len`](MemoryMap::len).
    #[inline]
    fn set_at(&mut self, i: usize, entry: MemoryDescriptor) {
        assert!(i < self.len());
        let offset = offset_of(&self.meta(), i);
        entry.write(&mut self.buffer_mut()[offset..offset + DESCRIPTOR_LENGTH]);
    }

    /// Returns the whole buffer, to be written. Any bytes are descriptors, so it stays a map.
    fn buffer_mut(&mut self) -> &mut [u8];
}
