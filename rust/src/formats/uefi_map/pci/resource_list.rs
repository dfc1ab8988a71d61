// @generated from proved source. It is not edited.

use super::resource::QwordAddressSpaceDescriptor;
use super::resource_error::ResourceError;
use super::resource_iter::ResourceIter;

/// The resources of a PCI root bridge (UEFI 2.10, 14.2
/// `EFI_PCI_ROOT_BRIDGE_IO_PROTOCOL.Configuration()`): a record of 46 bytes for each
/// [`QwordAddressSpaceDescriptor`], and then the end tag 0x79 (ACPI 6.5, 6.4.2.9).
///
/// A view: it borrows the bytes that it was read from, and allocates nothing.
///
/// # Examples
///
/// ```
/// use uefi_formats::proto::pci::{ResourceError, ResourceList};
///
/// /// Returns the count of addresses in all ranges that the bytes list, or `None` if they begin with
/// /// no list or the sum doesn't fit.
/// fn addresses_in(bytes: &[u8]) -> Option<u64> {
///     let list = ResourceList::try_from(bytes).ok()?;
///     list.iter().try_fold(0u64, |sum, range| sum.checked_add(range.address_length))
/// }
///
/// let mut bytes = [0; 48];
/// bytes[..3].copy_from_slice(&[0x8a, 0x2b, 0]);
/// bytes[38] = 7;
/// bytes[46] = 0x79;
/// assert_eq!(addresses_in(&bytes), Some(7));
/// assert_eq!(ResourceList::try_from(&bytes[..46]).err(), Some(ResourceError::NoEndTag));
/// ```
#[derive(Clone, Copy)]
pub struct ResourceList<'a> {
    records: &'a [u8],
}

impl core::fmt::Debug for ResourceList<'_> {
    fn fmt(&self, f: &mut core::fmt::Formatter<'_>) -> core::fmt::Result {
        f.debug_struct("ResourceList")
            .field("records", &crate::support::debug::Bytes(self.records))
            .finish()
    }
}

impl<'a> ResourceList<'a> {
    /// Returns the resources, in order.
    #[must_use]
    #[inline]
    pub fn iter(&self) -> ResourceIter<'a> {
        ResourceIter::new(self.records)
    }
}

/// Reads the list that the bytes begin with. The bytes after its end tag aren't looked at.
///
/// # Errors
///
/// Fails exactly if the bytes begin with no list. The first offset at which neither a whole record
/// nor the end tag begins decides:
///
/// - [`NoEndTag`](ResourceError::NoEndTag) if the bytes end there.
/// - [`CutRecord`](ResourceError::CutRecord) if the tag of a record is there, and the bytes end before
///   the record does.
/// - [`UnknownTag`](ResourceError::UnknownTag) with the byte there, if it is neither tag.
///
/// It allocates nothing, so [`Memory`](ResourceError::Memory) never comes.
impl<'a> TryFrom<&'a [u8]> for ResourceList<'a> {
    type Error = ResourceError;

    #[inline]
    fn try_from(bytes: &'a [u8]) -> Result<ResourceList<'a>, ResourceError> {
        let mut rest = bytes;
        while let Some((_, after)) = QwordAddressSpaceDescriptor::read(rest)? {
            rest = after;
        }
        let (records, _) = bytes
            .split_at_checked(bytes.len() - rest.len())
            .ok_or(ResourceError::NoEndTag)?;
        Ok(ResourceList { records })
    }
}
