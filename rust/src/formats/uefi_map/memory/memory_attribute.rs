// @generated from proved source. It is not edited.

use crate::support::bitflags::bitflag_items;

/// What a range of memory is capable of, and whether runtime services need it: a set of flags in
/// eight bytes (UEFI 2.10, 7.2 `EFI_BOOT_SERVICES.GetMemoryMap()`).
///
/// Equality and order are those of the bits as a number, and the default is the empty set. A set
/// that is read, or made by [`MemoryAttribute::from_bits_retain`], keeps the bits without a name
/// here. The layout is that of `u64`.
#[derive(Clone, Copy, PartialEq, Eq, PartialOrd, Ord, Hash, Default)]
#[repr(transparent)]
pub struct MemoryAttribute(u64);

bitflag_items! {
    impl MemoryAttribute: u64 {
        /// The memory can be left uncached.
        const UNCACHEABLE = 0x1;
        /// Writes to the memory can be combined.
        const WRITE_COMBINE = 0x2;
        /// The memory can be cached with writes that go through.
        const WRITE_THROUGH = 0x4;
        /// The memory can be cached with writes that wait.
        const WRITE_BACK = 0x8;
        /// The memory can be left uncached, and is exported and supports the fetch and add mechanism
        /// of semaphores.
        const UNCACHABLE_EXPORTED = 0x10;
        /// The memory can be protected from writes by the hardware's caching rules.
        const WRITE_PROTECT = 0x1000;
        /// The memory can be protected from reads.
        const READ_PROTECT = 0x2000;
        /// The memory can be protected from execution.
        const EXECUTE_PROTECT = 0x4000;
        /// The memory keeps its bytes without power.
        const NON_VOLATILE = 0x8000;
        /// The memory is more reliable than other memory of the system.
        const MORE_RELIABLE = 0x1_0000;
        /// The memory can be protected from writes.
        const READ_ONLY = 0x2_0000;
        /// The memory is set aside for special purposes, such as those of a device's driver.
        const SPECIAL_PURPOSE = 0x4_0000;
        /// The memory can be protected by the processor's encryption.
        const CPU_CRYPTO = 0x8_0000;
        /// Runtime services need the memory mapped.
        const RUNTIME = 0x8000_0000_0000_0000;
        /// The bits of [`MemoryAttribute::ISA_MASK`] are attributes of the processor's architecture.
        const ISA_VALID = 0x4000_0000_0000_0000;
        /// The bits of attributes of the processor's architecture.
        const ISA_MASK = 0x0fff_f000_0000_0000;
    }
}

impl MemoryAttribute {
    /// Returns the empty set.
    #[must_use]
    #[inline]
    pub const fn empty() -> MemoryAttribute {
        MemoryAttribute::empty_of()
    }

    /// Returns all bits of the set, also those without a name.
    #[must_use]
    #[inline]
    pub const fn bits(&self) -> u64 {
        MemoryAttribute::bits_of(self)
    }

    /// Returns the set of these bits, or `None` if one of them has no name.
    #[must_use]
    #[inline]
    pub const fn from_bits(bits: u64) -> Option<MemoryAttribute> {
        MemoryAttribute::from_bits_of(bits)
    }

    /// Returns the set of these bits, also those without a name.
    #[must_use]
    #[inline]
    pub const fn from_bits_retain(bits: u64) -> MemoryAttribute {
        MemoryAttribute::from_bits_retain_of(bits)
    }

    /// Returns whether the set has no bit.
    #[must_use]
    #[inline]
    pub const fn is_empty(&self) -> bool {
        MemoryAttribute::is_empty_of(self)
    }

    /// Returns whether the set has each bit with a name.
    #[must_use]
    #[inline]
    pub const fn is_all(&self) -> bool {
        MemoryAttribute::is_all_of(self)
    }

    /// Returns whether the sets have a bit in common.
    #[must_use]
    #[inline]
    pub const fn intersects(&self, other: MemoryAttribute) -> bool {
        MemoryAttribute::intersects_of(self, other)
    }

    /// Returns whether each bit of the other set is in this one.
    #[must_use]
    #[inline]
    pub const fn contains(&self, other: MemoryAttribute) -> bool {
        MemoryAttribute::contains_of(self, other)
    }

    /// Returns the set of the bits of either set.
    #[must_use]
    #[inline]
    pub const fn union(self, other: MemoryAttribute) -> MemoryAttribute {
        MemoryAttribute::union_of(self, other)
    }

    /// Adds the bits of the other set.
    #[inline]
    pub const fn insert(&mut self, other: MemoryAttribute) {
        MemoryAttribute::insert_of(self, other);
    }

    /// Removes the bits of the other set.
    #[inline]
    pub const fn remove(&mut self, other: MemoryAttribute) {
        MemoryAttribute::remove_of(self, other);
    }

    /// Returns the bits that the other set doesn't have.
    #[must_use]
    #[inline]
    pub const fn difference(self, other: MemoryAttribute) -> MemoryAttribute {
        MemoryAttribute::difference_of(self, other)
    }
}
