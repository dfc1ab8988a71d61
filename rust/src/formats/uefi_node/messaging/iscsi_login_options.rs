// @generated from proved source. It is not edited.

use crate::support::bitflags::bitflag_items;

/// How to log in to an iSCSI target: a set of flags in two bytes (UEFI 2.10, 10.3.4.21).
///
/// Without a flag a digest isn't used, and authentication is two-way CHAP.
///
/// Equality and order are those of the bits, and the default is the empty set.
/// [`IscsiLoginOptions::from_bits_retain`] keeps bits without a name. The layout is that of `u16`.
#[derive(Clone, Copy, PartialEq, Eq, PartialOrd, Ord, Hash, Default)]
#[repr(transparent)]
pub struct IscsiLoginOptions(u16);

bitflag_items! {
    impl IscsiLoginOptions: u16 {
        /// Headers have a digest, by CRC32C.
        const HEADER_DIGEST_USING_CRC32C = 0x0002;
        /// Data have a digest, by CRC32C.
        const DATA_DIGEST_USING_CRC32C = 0x0008;
        /// No authentication.
        const AUTH_METHOD_NONE = 0x0800;
        /// CHAP is one-way.
        const CHAP_UNI = 0x1000;
    }
}

impl IscsiLoginOptions {
    /// Returns the set without flags.
    #[must_use]
    #[inline]
    pub const fn empty() -> IscsiLoginOptions {
        IscsiLoginOptions::empty_of()
    }

    /// Returns all bits of the set, including those without a name.
    #[must_use]
    #[inline]
    pub const fn bits(&self) -> u16 {
        IscsiLoginOptions::bits_of(self)
    }

    /// Returns the set of these bits, or `None` if one of them has no name.
    #[must_use]
    #[inline]
    pub const fn from_bits(bits: u16) -> Option<IscsiLoginOptions> {
        IscsiLoginOptions::from_bits_of(bits)
    }

    /// Returns the set of these bits, including those without a name.
    #[must_use]
    #[inline]
    pub const fn from_bits_retain(bits: u16) -> IscsiLoginOptions {
        IscsiLoginOptions::from_bits_retain_of(bits)
    }

    /// Returns whether the set has no bit.
    #[must_use]
    #[inline]
    pub const fn is_empty(&self) -> bool {
        IscsiLoginOptions::is_empty_of(self)
    }

    /// Returns whether the set has each bit with a name.
    #[must_use]
    #[inline]
    pub const fn is_all(&self) -> bool {
        IscsiLoginOptions::is_all_of(self)
    }

    /// Returns whether the sets have a bit in common.
    #[must_use]
    #[inline]
    pub const fn intersects(&self, other: IscsiLoginOptions) -> bool {
        IscsiLoginOptions::intersects_of(self, other)
    }

    /// Returns whether each bit of the other set is in this one.
    #[must_use]
    #[inline]
    pub const fn contains(&self, other: IscsiLoginOptions) -> bool {
        IscsiLoginOptions::contains_of(self, other)
    }

    /// Returns the bits of either set.
    #[must_use]
    #[inline]
    pub const fn union(self, other: IscsiLoginOptions) -> IscsiLoginOptions {
        IscsiLoginOptions::union_of(self, other)
    }

    /// Adds the bits of the other set.
    #[inline]
    pub const fn insert(&mut self, other: IscsiLoginOptions) {
        IscsiLoginOptions::insert_of(self, other);
    }

    /// Removes the bits of the other set.
    #[inline]
    pub const fn remove(&mut self, other: IscsiLoginOptions) {
        IscsiLoginOptions::remove_of(self, other);
    }

    /// Returns the bits that the other set doesn't have.
    #[must_use]
    #[inline]
    pub const fn difference(self, other: IscsiLoginOptions) -> IscsiLoginOptions {
        IscsiLoginOptions::difference_of(self, other)
    }
}
