// @generated from proved source. It is not edited.

//! What `pci` lists of bytes, and what it refuses.

use crate::uefi_listing::listing::Outcome;
use crate::shown::HexNumber;
use crate::support::alloc::AllocError;
use core::fmt;
use uefi_formats::proto::pci::{
    QwordAddressSpaceDescriptor, ResourceError, ResourceList, ResourceRangeType,
};

/// Appends the lines of a list of PCI resources: for each range `resource KIND GENERAL SPECIFIC
/// GRANULARITY MIN MAX OFFSET LENGTH`, both flags in decimal, the numbers after them as `0x` and
/// hex; last `resources N`, the count of ranges.
///
/// KIND is `Memory`, `Io`, `Bus` or `Unknown(N)`.
///
/// # Errors
///
/// [`AllocError`] if an allocation fails. The text may have grown then.
pub fn push_resources(
    text: &mut String,
    list: &ResourceList<'_>,
) -> Result<(), AllocError> {
    for range in list.iter() {
        push_resource(text, &range)?;
    }
    let count = list.iter().len();
    fallible_writeln!(text, "resources {count}")
}

/// Appends the line of a range.
fn push_resource(
    text: &mut String,
    range: &QwordAddressSpaceDescriptor,
) -> Result<(), AllocError> {
    let kind = Kind(range.resource_range_type);
    let (general, specific) = (range.general_flags, range.type_specific_flags);
    let granularity = HexNumber(range.granularity);
    let (min, max) = (HexNumber(range.address_min), HexNumber(range.address_max));
    let offset = HexNumber(range.translation_offset);
    let length = HexNumber(range.address_length);
    fallible_writeln!(text,
        "resource {kind} {general} {specific} {granularity} {min} {max} {offset} {length}"
    )
}

/// The type of a range, displayed as its name, with its number if it has no name.
#[derive(Clone, Copy, Debug)]
struct Kind(ResourceRangeType);

impl fmt::Display for Kind {
    fn fmt(&self, f: &mut fmt::Formatter<'_>) -> fmt::Result {
        let name = match self.0 {
            ResourceRangeType::Memory => "Memory",
            ResourceRangeType::Io => "Io",
            ResourceRangeType::Bus => "Bus",
            ResourceRangeType::Unknown(number) => return write!(f, "Unknown({number})"),
        };
        f.write_str(name)
    }
}

/// Appends the listing of the PCI resources that the bytes begin with.
///
/// # Errors
///
/// [`AllocError`] if an allocation fails. The text may have grown then.
pub(crate) fn push_pci_listing(
    text: &mut String,
    bytes: &[u8],
) -> Result<Outcome, AllocError> {
    match ResourceList::try_from(bytes) {
        Ok(list) => {
            push_resources(text, &list)?;
            Ok(Outcome::Listed)
        }
        Err(fault) => {
            push_fault(text, fault)?;
            Ok(Outcome::Refused)
        }
    }
}

/// Appends the line that names a fault. Running out of memory is none, and has no line.
fn push_fault(text: &mut String, fault: ResourceError) -> Result<(), AllocError> {
    match fault {
        ResourceError::NoEndTag => fallible_writeln!(text, "refused NoEndTag"),
        ResourceError::CutRecord => fallible_writeln!(text, "refused CutRecord"),
        ResourceError::UnknownTag(tag) => fallible_writeln!(text, "refused UnknownTag({tag})"),
        ResourceError::Memory => Ok(()),
    }
}
