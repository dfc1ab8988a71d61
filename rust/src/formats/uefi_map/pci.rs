// @generated from proved source. It is not edited.

//! Lists of PCI resources (UEFI 2.10, 14.2): their records, the list that bytes begin with, and its
//! resources in a vector.

#[cfg(feature = "alloc")]
use alloc::vec::Vec;
#[cfg(feature = "alloc")]
use crate::support::fallible::*;

pub use self::resource::{QwordAddressSpaceDescriptor, ResourceRangeType};
pub use self::resource_error::ResourceError;
pub use self::resource_iter::ResourceIter;
pub use self::resource_list::ResourceList;

// A record.
mod resource;

// A list of records.
mod resource_error;
mod resource_iter;
mod resource_list;

/// Returns the resources of the list that the bytes begin with, in order: those of
/// [`ResourceList::try_from`], in a vector.
///
/// # Errors
///
/// - The error of [`ResourceList::try_from`] if the bytes begin with no list.
/// - [`Memory`](ResourceError::Memory) if they begin with one, and an allocation fails.
#[cfg(feature = "alloc")]
#[inline]
pub fn parse(
    bytes: &[u8],
) -> Result<Vec<QwordAddressSpaceDescriptor>, ResourceError> {
    let list = ResourceList::try_from(bytes)?;
    Ok(list.iter().fallible_collect()?)
}
