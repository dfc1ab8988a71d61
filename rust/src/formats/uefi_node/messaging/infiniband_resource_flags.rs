// @generated from proved source. It is not edited.

use crate::support::bitflags::bitflag_items;

/// Which resource an InfiniBand device is: a set of flags in four bytes (UEFI 2.10, 10.3.4.15).
///
/// Equality and order are those of the bits, and the default is the empty set.
/// [`InfinibandResourceFlags::from_bits_retain`] keeps bits without a name. The layout is that of
/// `u32`.
#[derive(Clone, Copy, PartialEq, Eq, PartialOrd, Ord, Hash, Default)]
#[repr(transparent)]
pub struct InfinibandResourceFlags(u32);

bitflag_items! {
    impl InfinibandResourceFlags: u32 {
        /// A service, by its identifier, rather than an I/O controller, by its GUID.
        const SERVICE = 0x0001;
        /// The extended boot environment.
        const EXTENDED_BOOT_ENVIRONMENT = 0x0002;
        /// The console protocol.
        const CONSOLE_PROTOCOL = 0x0004;
        /// The storage protocol.
        const STORAGE_PROTOCOL = 0x0008;
        /// The network protocol.
        const NETWORK_PROTOCOL = 0x0010;
    }
}

impl InfinibandResourceFlags {
    /// Returns the set without flags.
    #[must_use]
    #[inline]
    pub const fn empty() -> InfinibandResourceFlags {
        InfinibandResourceFlags::empty_of()
    }

    /// Returns all bits of the set, including those without a name.
    #[must_use]
    #[inline]
    pub const fn bits(&self) -> u32 {
        InfinibandResourceFlags::bits_of(self)
    }

    /// Returns the set of these bits, or `None` if one of them has no name.
    #[must_use]
    #[inline]
    pub const fn from_bits(bits: u32) -> Option<InfinibandResourceFlags> {
        InfinibandResourceFlags::from_bits_of(bits)
    }

    /// Returns the set of these bits, including those without a name.
    #[must_use]
    #[inline]
    pub const fn from_bits_retain(bits: u32) -> InfinibandResourceFlags {
        InfinibandResourceFlags::from_bits_retain_of(bits)
    }

    /// Returns whether the set has no bit.
    #[must_use]
    #[inline]
    pub const fn is_empty(&self) -> bool {
        InfinibandResourceFlags::is_empty_of(self)
    }

    /// Returns whether the set has each bit with a name.
    #[must_use]
    #[inline]
    pub const fn is_all(&self) -> bool {
        InfinibandResourceFlags::is_all_of(self)
    }

    /// Returns whether the sets have a bit in common.
    #[must_use]
    #[inline]
    pub const fn intersects(&self, other: InfinibandResourceFlags) -> bool {
        InfinibandResourceFlags::intersects_of(self, other)
    }

    /// Returns whether each bit of the other set is in this one.
    #[must_use]
    #[inline]
    pub const fn contains(&self, other: InfinibandResourceFlags) -> bool {
        InfinibandResourceFlags::contains_of(self, other)
    }

    /// Returns the bits of either set.
    #[must_use]
    #[inline]
    pub const fn union(self, other: InfinibandResourceFlags) -> InfinibandResourceFlags {
        InfinibandResourceFlags::union_of(self, other)
    }

    /// Adds the bits of the other set.
    #[inline]
    pub const fn insert(&mut self, other: InfinibandResourceFlags) {
        InfinibandResourceFlags::insert_of(self, other);
    }

    /// Removes the bits of the other set.
    #[inline]
    pub const fn remove(&mut self, other: InfinibandResourceFlags) {
        InfinibandResourceFlags::remove_of(self, other);
    }

    /// Returns the bits that the other set doesn't have.
    #[must_use]
    #[inline]
    pub const fn difference(self, other: InfinibandResourceFlags) -> InfinibandResourceFlags {
        InfinibandResourceFlags::difference_of(self, other)
    }
}
