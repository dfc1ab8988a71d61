// @generated from proved source. It is not edited.

use crate::support::bitflags::bitflag_items;

/// The attributes of a file: a set of flags in eight bytes (UEFI 2.10, 13.5
/// `EFI_FILE_PROTOCOL.Open()`).
///
/// Equality and order are those of the bits, and the default is the empty set.
/// [`FileAttribute::from_bits_retain`] keeps bits without a name. The layout is that of `u64`.
#[derive(Clone, Copy, PartialEq, Eq, PartialOrd, Ord, Hash, Default)]
#[repr(transparent)]
pub struct FileAttribute(u64);

bitflag_items! {
    impl FileAttribute: u64 {
        /// The file is read-only.
        const READ_ONLY = 0x01;
        /// The file is hidden from listings.
        const HIDDEN = 0x02;
        /// The file belongs to an operating system.
        const SYSTEM = 0x04;
        /// The file is a directory.
        const DIRECTORY = 0x10;
        /// The file has changed since it was last archived.
        const ARCHIVE = 0x20;
        /// All flags that have a name.
        const VALID_ATTR = 0x37;
    }
}

impl FileAttribute {
    /// Returns the set without flags.
    #[must_use]
    #[inline]
    pub const fn empty() -> FileAttribute {
        FileAttribute::empty_of()
    }

    /// Returns all bits of the set, including those without a name.
    #[must_use]
    #[inline]
    pub const fn bits(&self) -> u64 {
        FileAttribute::bits_of(self)
    }

    /// Returns the set of these bits, or `None` if one of them has no name.
    #[must_use]
    #[inline]
    pub const fn from_bits(bits: u64) -> Option<FileAttribute> {
        FileAttribute::from_bits_of(bits)
    }

    /// Returns the set of these bits, including those without a name.
    #[must_use]
    #[inline]
    pub const fn from_bits_retain(bits: u64) -> FileAttribute {
        FileAttribute::from_bits_retain_of(bits)
    }

    /// Returns whether the set has no bit.
    #[must_use]
    #[inline]
    pub const fn is_empty(&self) -> bool {
        FileAttribute::is_empty_of(self)
    }

    /// Returns whether the set has each bit with a name.
    #[must_use]
    #[inline]
    pub const fn is_all(&self) -> bool {
        FileAttribute::is_all_of(self)
    }

    /// Returns whether the sets have a bit in common.
    #[must_use]
    #[inline]
    pub const fn intersects(&self, other: FileAttribute) -> bool {
        FileAttribute::intersects_of(self, other)
    }

    /// Returns whether each bit of the other set is in this one.
    #[must_use]
    #[inline]
    pub const fn contains(&self, other: FileAttribute) -> bool {
        FileAttribute::contains_of(self, other)
    }

    /// Returns the set of the bits that are in either set.
    #[must_use]
    #[inline]
    pub const fn union(self, other: FileAttribute) -> FileAttribute {
        FileAttribute::union_of(self, other)
    }

    /// Adds the bits of the other set.
    #[inline]
    pub const fn insert(&mut self, other: FileAttribute) {
        FileAttribute::insert_of(self, other);
    }

    /// Removes the bits of the other set.
    #[inline]
    pub const fn remove(&mut self, other: FileAttribute) {
        FileAttribute::remove_of(self, other);
    }

    /// Returns the bits that the other set doesn't have.
    #[must_use]
    #[inline]
    pub const fn difference(self, other: FileAttribute) -> FileAttribute {
        FileAttribute::difference_of(self, other)
    }
}
