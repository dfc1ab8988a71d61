// @generated from proved source. It is not edited.

use crate::formats::uefi_base::Guid;

/// A type that a GUID identifies, such as a file information record.
///
/// A type with a lifetime implements [`IdentifiedBy`], which gives it this trait.
pub trait Identify {
    /// The GUID.
    const GUID: Guid;

    /// Returns the GUID.
    #[must_use]
    #[inline]
    fn identity() -> Guid {
        Self::GUID
    }
}

/// A type that has the GUID of another type, its identity.
///
/// The identity is a type without a lifetime.
pub trait IdentifiedBy {
    /// The type whose GUID this type has.
    type Identity: Identify;
}

impl<T: IdentifiedBy> Identify for T {
    const GUID: Guid = <T::Identity as Identify>::GUID;
}
