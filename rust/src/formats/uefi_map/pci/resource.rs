// @generated from proved source. It is not edited.

use super::resource_error::ResourceError;
use crate::formats::uefi_base::little_endian::u64_at;

/// The first byte of a record.
const RECORD_TAG: u8 = 0x8a;

/// The first byte of the end tag.
const END_TAG: u8 = 0x79;

/// The length of a record.
pub(crate) const RECORD_LENGTH: usize = 46;

// The offsets of the fields.
const RANGE_TYPE_OFFSET: usize = 3;

const GENERAL_FLAGS_OFFSET: usize = 4;

const TYPE_SPECIFIC_FLAGS_OFFSET: usize = 5;

const GRANULARITY_OFFSET: usize = 6;

const ADDRESS_MIN_OFFSET: usize = 14;

const ADDRESS_MAX_OFFSET: usize = 22;

const TRANSLATION_OFFSET_OFFSET: usize = 30;

const ADDRESS_LENGTH_OFFSET: usize = 38;

/// What a range is made of (ACPI 6.5, 6.4.3.5.1 "QWord Address Space Descriptor", resource type).
#[derive(Clone, Copy, PartialEq, Eq, Debug)]
pub enum ResourceRangeType {
    /// Memory addresses, number 0.
    Memory,
    /// I/O ports, number 1.
    Io,
    /// Bus numbers, number 2.
    Bus,
    /// Another number, which is kept as it is.
    Unknown(u8),
}

impl ResourceRangeType {
    /// Returns the number of the type.
    #[must_use]
    #[inline]
    pub const fn number(&self) -> u8 {
        match self {
            ResourceRangeType::Memory => 0,
            ResourceRangeType::Io => 1,
            ResourceRangeType::Bus => 2,
            ResourceRangeType::Unknown(number) => *number,
        }
    }
}

/// The type with the number: a named one for 0, 1 and 2, and otherwise
/// [`Unknown`](ResourceRangeType::Unknown) with the number.
impl From<u8> for ResourceRangeType {
    #[inline]
    fn from(number: u8) -> ResourceRangeType {
        match number {
            0 => ResourceRangeType::Memory,
            1 => ResourceRangeType::Io,
            2 => ResourceRangeType::Bus,
            other => ResourceRangeType::Unknown(other),
        }
    }
}

/// A range that a PCI root bridge decodes (ACPI 6.5, 6.4.3.5.1 "QWord Address Space Descriptor").
///
/// | offset | bytes | field |
/// |---|---|---|
/// | 0 | 1 | the tag 0x8a |
/// | 1 | 2 | the length of what follows, which isn't looked at |
/// | 3 | 1 | [`ResourceRangeType`] |
/// | 4 | 1 | general flags |
/// | 5 | 1 | flags of the type |
/// | 6 | 8 | granularity |
/// | 14 | 8 | lowest address |
/// | 22 | 8 | highest address |
/// | 30 | 8 | translation offset |
/// | 38 | 8 | length of the range |
///
/// Numbers of eight bytes are little-endian. The fields are what the bytes state, whether or not
/// they agree with one another.
#[non_exhaustive]
#[derive(Clone, Copy, Debug)]
pub struct QwordAddressSpaceDescriptor {
    /// What the range is made of.
    pub resource_range_type: ResourceRangeType,
    /// Flags that say how the bridge decodes the range.
    pub general_flags: u8,
    /// Flags whose meaning depends on the range's type, as whether memory may be cached.
    pub type_specific_flags: u8,
    /// The count of address bits with which memory is decoded, 32 or 64.
    pub granularity: u64,
    /// The lowest address of the range.
    pub address_min: u64,
    /// The highest address of the range.
    pub address_max: u64,
    /// What is added to an address on the secondary side of the bridge to give that on its primary
    /// side.
    pub translation_offset: u64,
    /// The count of addresses or bus numbers in the range.
    pub address_length: u64,
}

impl QwordAddressSpaceDescriptor {
    /// Reads the record that the bytes begin with, and returns its resource and the bytes after it.
    /// If the bytes begin with the end tag, it returns `None`.
    ///
    /// [`ResourceList::try_from`](crate::formats::uefi_map::ResourceList) reads each record so.
    ///
    /// # Errors
    ///
    /// - [`NoEndTag`](ResourceError::NoEndTag) if there is no byte.
    /// - [`CutRecord`](ResourceError::CutRecord) if the tag of a record is there, and the bytes end
    ///   before the record does.
    /// - [`UnknownTag`](ResourceError::UnknownTag) with the first byte, if it is neither tag.
    #[inline]
    pub fn read(bytes: &[u8]) -> Result<Option<(QwordAddressSpaceDescriptor, &[u8])>, ResourceError> {
        match bytes.first() {
            None => Err(ResourceError::NoEndTag),
            Some(&END_TAG) => Ok(None),
            Some(&RECORD_TAG) if bytes.len() < RECORD_LENGTH => Err(ResourceError::CutRecord),
            Some(&RECORD_TAG) => {
                let (record, after) = bytes.split_at(RECORD_LENGTH);
                Ok(Some((QwordAddressSpaceDescriptor::in_record(record), after)))
            }
            Some(tag) => Err(ResourceError::UnknownTag(*tag)),
        }
    }

    /// Returns the fields of a record, whatever its first three bytes.
    #[inline]
    pub(crate) fn in_record(bytes: &[u8]) -> QwordAddressSpaceDescriptor {
        QwordAddressSpaceDescriptor {
            resource_range_type: ResourceRangeType::from(bytes[RANGE_TYPE_OFFSET]),
            general_flags: bytes[GENERAL_FLAGS_OFFSET],
            type_specific_flags: bytes[TYPE_SPECIFIC_FLAGS_OFFSET],
            granularity: u64_at(bytes, GRANULARITY_OFFSET),
            address_min: u64_at(bytes, ADDRESS_MIN_OFFSET),
            address_max: u64_at(bytes, ADDRESS_MAX_OFFSET),
            translation_offset: u64_at(bytes, TRANSLATION_OFFSET_OFFSET),
            address_length: u64_at(bytes, ADDRESS_LENGTH_OFFSET),
        }
    }
}
