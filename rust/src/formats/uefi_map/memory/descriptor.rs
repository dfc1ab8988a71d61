// @generated from proved source. It is not edited.

#[cfg(feature = "alloc")]
use super::layout::DESCRIPTOR_LENGTH;
use super::layout::{
    ATTRIBUTE_OFFSET, DESCRIPTOR_ALIGNMENT, PADDING_OFFSET, PAGE_COUNT_OFFSET,
    PHYS_START_OFFSET, TYPE_OFFSET, VIRT_START_OFFSET,
};
use super::memory_attribute::MemoryAttribute;
use super::memory_type::MemoryType;
use crate::formats::uefi_base::Align;
use crate::formats::uefi_base::buffer::put;
use crate::formats::uefi_base::little_endian::{u32_at, u64_at};

/// A range of memory (UEFI 2.10, 7.2 `EFI_BOOT_SERVICES.GetMemoryMap()`, `EFI_MEMORY_DESCRIPTOR`).
///
/// | offset | bytes | field |
/// |---|---|---|
/// | 0 | 4 | type |
/// | 4 | 4 | padding |
/// | 8 | 8 | first physical address |
/// | 16 | 8 | first virtual address |
/// | 24 | 8 | count of pages, of 4096 bytes each |
/// | 32 | 8 | attributes |
///
/// All numbers are little-endian. Every number is kept as it was read, and so is the padding.
///
/// The fields lie in memory as in the table: the layout is that of C.
#[derive(Clone, Copy, PartialEq, Eq, Debug)]
#[repr(C)]
pub struct MemoryDescriptor {
    /// What the memory is for.
    pub ty: MemoryType,
    /// Four bytes without a meaning.
    pub padding: u32,
    /// The first physical address.
    pub phys_start: u64,
    /// The first virtual address, if the memory is mapped.
    pub virt_start: u64,
    /// The count of pages, of 4096 bytes each.
    pub page_count: u64,
    /// What the memory is capable of.
    pub att: MemoryAttribute,
}

#[cfg(feature = "alloc")]
const _: () = assert!(size_of::<MemoryDescriptor>() == DESCRIPTOR_LENGTH);

impl MemoryDescriptor {
    /// The version of the descriptors that this type reads and writes.
    pub const VERSION: u32 = 1;

    /// Returns the descriptor in the first forty bytes.
    #[inline]
    pub(crate) fn read(bytes: &[u8]) -> MemoryDescriptor {
        MemoryDescriptor {
            ty: MemoryType(u32_at(bytes, TYPE_OFFSET)),
            padding: u32_at(bytes, PADDING_OFFSET),
            phys_start: u64_at(bytes, PHYS_START_OFFSET),
            virt_start: u64_at(bytes, VIRT_START_OFFSET),
            page_count: u64_at(bytes, PAGE_COUNT_OFFSET),
            att: MemoryAttribute::from_bits_retain(u64_at(bytes, ATTRIBUTE_OFFSET)),
        }
    }

    /// Writes the descriptor to forty bytes.
    #[inline]
    pub(crate) fn write(&self, bytes: &mut [u8]) {
        put(bytes, TYPE_OFFSET, &self.ty.0.to_le_bytes());
        put(bytes, PADDING_OFFSET, &self.padding.to_le_bytes());
        put(bytes, PHYS_START_OFFSET, &self.phys_start.to_le_bytes());
        put(bytes, VIRT_START_OFFSET, &self.virt_start.to_le_bytes());
        put(bytes, PAGE_COUNT_OFFSET, &self.page_count.to_le_bytes());
        put(bytes, ATTRIBUTE_OFFSET, &self.att.bits().to_le_bytes());
    }
}

/// Every field is zero: reserved memory of no pages at address 0, without attributes.
impl Default for MemoryDescriptor {
    #[inline]
    fn default() -> MemoryDescriptor {
        MemoryDescriptor {
            ty: MemoryType::RESERVED,
            padding: 0,
            phys_start: 0,
            virt_start: 0,
            page_count: 0,
            att: MemoryAttribute::empty(),
        }
    }
}

impl Align for MemoryDescriptor {
    #[inline]
    fn alignment() -> usize {
        DESCRIPTOR_ALIGNMENT
    }
}
