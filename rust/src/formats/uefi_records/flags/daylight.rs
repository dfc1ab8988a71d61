// @generated from proved source. It is not edited.

use crate::support::bitflags::bitflag_items;

/// How daylight saving affects a time: a set of flags in one byte (UEFI 2.10, 8.3 `GetTime()`,
/// `EFI_TIME`).
///
/// Equality and order are those of the bits, and the default is the empty set.
/// [`Daylight::from_bits_retain`] keeps bits without a name. The layout is that of `u8`.
#[derive(Clone, Copy, PartialEq, Eq, PartialOrd, Ord, Hash, Default)]
#[repr(transparent)]
pub struct Daylight(u8);

bitflag_items! {
    impl Daylight: u8 {
        /// The time is affected by daylight saving: clocks are set forward when it begins.
        const ADJUST_DAYLIGHT = 0x01;
        /// The time has been set forward for daylight saving.
        const IN_DAYLIGHT = 0x02;
    }
}

impl Daylight {
    /// Returns the set without flags.
    #[must_use]
    #[inline]
    pub const fn empty() -> Daylight {
        Daylight::empty_of()
    }

    /// Returns all bits of the set, including those without a name.
    #[must_use]
    #[inline]
    pub const fn bits(&self) -> u8 {
        Daylight::bits_of(self)
    }

    /// Returns the set of these bits, or `None` if one of them has no name.
    #[must_use]
    #[inline]
    pub const fn from_bits(bits: u8) -> Option<Daylight> {
        Daylight::from_bits_of(bits)
    }

    /// Returns the set of these bits, including those without a name.
    #[must_use]
    #[inline]
    pub const fn from_bits_retain(bits: u8) -> Daylight {
        Daylight::from_bits_retain_of(bits)
    }

    /// Returns whether the set has no bit.
    #[must_use]
    #[inline]
    pub const fn is_empty(&self) -> bool {
        Daylight::is_empty_of(self)
    }

    /// Returns whether the set has each bit with a name.
    #[must_use]
    #[inline]
    pub const fn is_all(&self) -> bool {
        Daylight::is_all_of(self)
    }

    /// Returns whether the sets have a bit in common.
    #[must_use]
    #[inline]
    pub const fn intersects(&self, other: Daylight) -> bool {
        Daylight::intersects_of(self, other)
    }

    /// Returns whether each bit of the other set is in this one.
    #[must_use]
    #[inline]
    pub const fn contains(&self, other: Daylight) -> bool {
        Daylight::contains_of(self, other)
    }

    /// Returns the set of the bits that are in either set.
    #[must_use]
    #[inline]
    pub const fn union(self, other: Daylight) -> Daylight {
        Daylight::union_of(self, other)
    }

    /// Adds the bits of the other set.
    #[inline]
    pub const fn insert(&mut self, other: Daylight) {
        Daylight::insert_of(self, other);
    }

    /// Removes the bits of the other set.
    #[inline]
    pub const fn remove(&mut self, other: Daylight) {
        Daylight::remove_of(self, other);
    }

    /// Returns the bits that the other set doesn't have.
    #[must_use]
    #[inline]
    pub const fn difference(self, other: Daylight) -> Daylight {
        Daylight::difference_of(self, other)
    }
}
