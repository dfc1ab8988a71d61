// @generated from proved source. It is not edited.

use core::mem::MaybeUninit;
use crate::bytes::Bytes;

use crate::formats::uefi_c::cursor::bytes_from;
use crate::formats::uefi_c::status::{self, UefiStatus};
use crate::formats::uefi_map::{QwordAddressSpaceDescriptor, ResourceError};

/// A range that a PCI root bridge decodes.
#[derive(Clone, Copy, Debug)]
#[repr(C)]
pub struct UefiResource {
    /// The count of address bits with which memory is decoded.
    pub granularity: u64,
    /// The lowest address of the range.
    pub address_min: u64,
    /// The highest address of the range.
    pub address_max: u64,
    /// What is added to an address on the secondary side of the bridge to give that on its primary
    /// side.
    pub translation_offset: u64,
    /// The count of addresses or bus numbers in the range.
    pub address_length: u64,
    /// What the range is made of: 0 for memory, 1 for I/O ports, 2 for bus numbers.
    pub range_type: u8,
    /// Flags that say how the bridge decodes the range.
    pub general_flags: u8,
    /// Flags whose meaning depends on the range's type.
    pub type_specific_flags: u8,
}

/// Reads the resource at the offset, and moves the offset to its end. At the end tag the walk has
/// ended. The other statuses: the bytes end there, they cut the record, or another byte is there.
#[unsafe(no_mangle)]
pub extern "C" fn uefi_pci_next(
    list: Bytes<'_>,
    offset: &mut usize,
    out: &mut MaybeUninit<UefiResource>,
) -> UefiStatus {
    let list = list.as_slice();
    let Some(rest) = bytes_from(list, *offset) else {
        return status::NO_END;
    };
    match QwordAddressSpaceDescriptor::read(rest) {
        Ok(Some((resource, after))) => {
            out.write(seen(&resource));
            *offset = list.len() - after.len();
            status::OK
        }
        Ok(None) => status::END,
        Err(ResourceError::NoEndTag) => status::NO_END,
        Err(ResourceError::CutRecord) => status::CUT,
        Err(ResourceError::UnknownTag(_)) => status::UNKNOWN_TAG,
        // A record is read without memory.
        Err(ResourceError::Memory) => unreachable!(),
    }
}

/// Returns the fields of a resource.
#[inline]
fn seen(resource: &QwordAddressSpaceDescriptor) -> UefiResource {
    UefiResource {
        granularity: resource.granularity,
        address_min: resource.address_min,
        address_max: resource.address_max,
        translation_offset: resource.translation_offset,
        address_length: resource.address_length,
        range_type: resource.resource_range_type.number(),
        general_flags: resource.general_flags,
        type_specific_flags: resource.type_specific_flags,
    }
}
