// @generated from proved source. It is not edited.

//! Where the descriptors of a map begin, and where each field of a descriptor does.

use super::meta::MemoryMapMeta;

/// The length of a descriptor.
pub(crate) const DESCRIPTOR_LENGTH: usize = 40;

/// The alignment of a descriptor in memory.
pub(crate) const DESCRIPTOR_ALIGNMENT: usize = 8;

/// The offset of the type in a descriptor.
pub(crate) const TYPE_OFFSET: usize = 0;

/// The offset of the padding.
pub(crate) const PADDING_OFFSET: usize = 4;

/// The offset of the first physical address.
pub(crate) const PHYS_START_OFFSET: usize = 8;

/// The offset of the first virtual address.
pub(crate) const VIRT_START_OFFSET: usize = 16;

/// The offset of the count of pages.
pub(crate) const PAGE_COUNT_OFFSET: usize = 24;

/// The offset of the attributes.
pub(crate) const ATTRIBUTE_OFFSET: usize = 32;

/// Returns the offset of a descriptor of a map.
#[inline]
pub(crate) fn offset_of(meta: &MemoryMapMeta, i: usize) -> usize {
    i * meta.desc_size
}
