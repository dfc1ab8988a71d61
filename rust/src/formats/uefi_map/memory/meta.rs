// @generated from proved source. It is not edited.

use super::layout::{DESCRIPTOR_ALIGNMENT, DESCRIPTOR_LENGTH};

/// The length of the longest map that counts as sane, 1 GiB.
const MAX_SANE_SIZE: usize = 1 << 30;

/// The key by which firmware knows one state of the memory map (UEFI 2.10, 7.2
/// `EFI_BOOT_SERVICES.GetMemoryMap()`, `MapKey`). The default is 0. The layout is that of `usize`.
#[derive(Clone, Copy, PartialEq, Eq, PartialOrd, Ord, Hash, Debug, Default)]
#[repr(transparent)]
pub struct MemoryMapKey(usize);

impl MemoryMapKey {
    /// Returns the key with the number.
    #[must_use]
    #[inline]
    pub const fn from_raw(key: usize) -> MemoryMapKey {
        MemoryMapKey(key)
    }
}

/// What firmware says of a memory map beside its bytes (UEFI 2.10, 7.2
/// `EFI_BOOT_SERVICES.GetMemoryMap()`).
#[derive(Clone, Copy, Debug)]
pub struct MemoryMapMeta {
    /// The length of the whole map.
    pub map_size: usize,
    /// The stride: the bytes from one descriptor to the next, which may be more than a descriptor
    /// has.
    pub desc_size: usize,
    /// The state of the map that the bytes are of.
    pub map_key: MemoryMapKey,
    /// The version of the descriptors.
    pub desc_version: u32,
}

impl MemoryMapMeta {
    /// Returns the sizes of a map of which neither the key nor the version is known: both are 0.
    #[must_use]
    #[inline]
    pub const fn of(map_size: usize, desc_size: usize) -> MemoryMapMeta {
        MemoryMapMeta {
            map_size,
            desc_size,
            map_key: MemoryMapKey::from_raw(0),
            desc_version: 0,
        }
    }

    /// Returns the count of descriptors, for a stride that isn't 0 and divides the map's length.
    ///
    /// # Panics
    ///
    /// If the stride is 0.
    /// If the stride doesn't divide the map's length.
    #[must_use]
    #[inline]
    pub const fn entry_count(&self) -> usize {
        assert!(self.desc_size != 0);
        assert!(self.map_size % self.desc_size == 0);
        self.map_size / self.desc_size
    }

    /// Returns whether the sizes are such as firmware gives: a stride of at least 40 bytes, and a
    /// map of 1 to 2^30 bytes.
    #[must_use]
    #[inline]
    pub fn assert_sanity_checks(&self) -> bool {
        self.desc_size >= DESCRIPTOR_LENGTH && (1..=MAX_SANE_SIZE).contains(&self.map_size)
    }

    /// Returns whether the sizes make a map of a buffer with this length: the stride is at least 40
    /// bytes, is a multiple of 8, and divides the map's length, which is at most the buffer's.
    #[must_use]
    #[inline]
    pub const fn is_map_within(&self, length: usize) -> bool {
        self.desc_size >= DESCRIPTOR_LENGTH
            && self.desc_size % DESCRIPTOR_ALIGNMENT == 0
            && self.map_size % self.desc_size == 0
            && self.map_size <= length
    }
}
