// @generated from proved source. It is not edited.

use crate::support::bitflags::bitflag_items;

/// What firmware does with a load option: a set of flags in four bytes (UEFI 2.10, 3.1.3,
/// `EFI_LOAD_OPTION`).
///
/// Equality and order are those of the bits, and the default is the empty set.
/// [`LoadOptionAttributes::from_bits_retain`] keeps bits without a name. The layout is that of
/// `u32`.
#[derive(Clone, Copy, PartialEq, Eq, PartialOrd, Ord, Hash, Default)]
#[repr(transparent)]
pub struct LoadOptionAttributes(u32);

bitflag_items! {
    impl LoadOptionAttributes: u32 {
        /// The boot manager tries the option without being asked.
        const ACTIVE = 0x0001;
        /// All drivers are disconnected and reconnected after the last driver option was loaded.
        const FORCE_RECONNECT = 0x0002;
        /// The option isn't shown in a menu.
        const HIDDEN = 0x0008;
        /// The bits of the category.
        const CATEGORY = 0x1f00;
        /// The category of applications, which aren't part of normal boot. The category 0 is that
        /// of boot options.
        const CATEGORY_APP = 0x0100;
    }
}

impl LoadOptionAttributes {
    /// Returns the set without flags.
    #[must_use]
    #[inline]
    pub const fn empty() -> LoadOptionAttributes {
        LoadOptionAttributes::empty_of()
    }

    /// Returns all bits of the set, including those without a name.
    #[must_use]
    #[inline]
    pub const fn bits(&self) -> u32 {
        LoadOptionAttributes::bits_of(self)
    }

    /// Returns the set of these bits, or `None` if one of them has no name.
    #[must_use]
    #[inline]
    pub const fn from_bits(bits: u32) -> Option<LoadOptionAttributes> {
        LoadOptionAttributes::from_bits_of(bits)
    }

    /// Returns the set of these bits, including those without a name.
    #[must_use]
    #[inline]
    pub const fn from_bits_retain(bits: u32) -> LoadOptionAttributes {
        LoadOptionAttributes::from_bits_retain_of(bits)
    }

    /// Returns whether the set has no bit.
    #[must_use]
    #[inline]
    pub const fn is_empty(&self) -> bool {
        LoadOptionAttributes::is_empty_of(self)
    }

    /// Returns whether the set has each bit with a name.
    #[must_use]
    #[inline]
    pub const fn is_all(&self) -> bool {
        LoadOptionAttributes::is_all_of(self)
    }

    /// Returns whether the sets have a bit in common.
    #[must_use]
    #[inline]
    pub const fn intersects(&self, other: LoadOptionAttributes) -> bool {
        LoadOptionAttributes::intersects_of(self, other)
    }

    /// Returns whether each bit of the other set is in this one.
    #[must_use]
    #[inline]
    pub const fn contains(&self, other: LoadOptionAttributes) -> bool {
        LoadOptionAttributes::contains_of(self, other)
    }

    /// Returns the bits of either set.
    #[must_use]
    #[inline]
    pub const fn union(self, other: LoadOptionAttributes) -> LoadOptionAttributes {
        LoadOptionAttributes::union_of(self, other)
    }

    /// Adds the bits of the other set.
    #[inline]
    pub const fn insert(&mut self, other: LoadOptionAttributes) {
        LoadOptionAttributes::insert_of(self, other);
    }

    /// Removes the bits of the other set.
    #[inline]
    pub const fn remove(&mut self, other: LoadOptionAttributes) {
        LoadOptionAttributes::remove_of(self, other);
    }

    /// Returns the bits that the other set doesn't have.
    #[must_use]
    #[inline]
    pub const fn difference(self, other: LoadOptionAttributes) -> LoadOptionAttributes {
        LoadOptionAttributes::difference_of(self, other)
    }
}
