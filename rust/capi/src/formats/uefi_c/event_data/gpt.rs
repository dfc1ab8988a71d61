// @generated from proved source. It is not edited.

use core::mem::MaybeUninit;
use crate::bytes::Bytes;

use crate::formats::uefi_c::status::{self, UefiStatus};
use crate::formats::tcg_event::{GptData, GptEntry, GptHeader};
use crate::formats::uefi_base::UnalignedSlice;
use crate::formats::uefi_tcg::UintnSize;

/// The number of units in a partition's name.
const NAME_UNITS: usize = 36;

/// The header of a partition table (UEFI 2.10, 5.3.2, `EFI_PARTITION_TABLE_HEADER`).
#[derive(Clone, Copy, Debug)]
#[repr(C)]
pub struct UefiGptHeader {
    /// The signature.
    pub signature: u64,
    /// The block of the header.
    pub my_lba: u64,
    /// The block of the other header.
    pub alternate_lba: u64,
    /// The first block that a partition may use.
    pub first_usable_lba: u64,
    /// The last block that a partition may use.
    pub last_usable_lba: u64,
    /// The first block of the entries.
    pub partition_entry_lba: u64,
    /// The revision.
    pub revision: u32,
    /// The size of the header in bytes.
    pub header_size: u32,
    /// The CRC32 of the header.
    pub header_crc32: u32,
    /// A reserved field.
    pub reserved: u32,
    /// The count of the entries on the disk.
    pub entry_count: u32,
    /// The size of each entry in bytes, at least 128.
    pub entry_size: u32,
    /// The CRC32 of the entries on the disk.
    pub entries_crc32: u32,
    /// The GUID of the disk.
    pub disk_guid: [u8; 16],
}

/// A partition (UEFI 2.10, 5.3.3, `EFI_PARTITION_ENTRY`).
#[derive(Clone, Copy, Debug)]
#[repr(C)]
pub struct UefiGptEntry<'a> {
    /// The bytes after the name, in an entry of more than 128.
    pub rest: Bytes<'a>,
    /// The first block.
    pub first_lba: u64,
    /// The last block.
    pub last_lba: u64,
    /// The attributes.
    pub attributes: u64,
    /// The GUID of the type.
    pub type_guid: [u8; 16],
    /// The GUID of the partition.
    pub unique_guid: [u8; 16],
    /// The units of the name: what follows a NUL isn't part of the name.
    pub name: [u16; NAME_UNITS],
}

/// Reads the header of the partition table that the data of an event are (TCG PC Client Platform
/// Firmware Profile 1.06, 10.4.1, `UEFI_GPT_DATA`), in a log whose header states this size of a
/// `UINTN`: 1 is four bytes, every other number eight.
#[unsafe(no_mangle)]
pub extern "C" fn uefi_gpt_header(
    event_data: Bytes<'_>,
    uintn_size: u8,
    out: &mut MaybeUninit<UefiGptHeader>,
) -> UefiStatus {
    let event_data = event_data.as_slice();
    let Some(gpt) = GptData::read(event_data, UintnSize::from_header(uintn_size)) else {
        return status::OTHER_DATA;
    };
    out.write(seen_header(&gpt.header()));
    status::OK
}

/// Reads the entry at an index of the partition table that the data of an event are, with the size
/// of a `UINTN` as for [`uefi_gpt_header`]. It goes over the entries before it.
#[unsafe(no_mangle)]
pub extern "C" fn uefi_gpt_entry<'a>(
    event_data: Bytes<'a>,
    uintn_size: u8,
    index: usize,
    out: &mut MaybeUninit<UefiGptEntry<'a>>,
) -> UefiStatus {
    let event_data = event_data.as_slice();
    let size = UintnSize::from_header(uintn_size);
    let Some(entry) = entry_at(event_data, size, index) else {
        return match GptData::read(event_data, size) {
            Some(_gpt) => status::END,
            None => status::OTHER_DATA,
        };
    };
    out.write(seen_entry(&entry));
    status::OK
}

/// Returns the entry at an index of the table that the bytes are with a `UINTN` of this size.
#[inline]
fn entry_at(bytes: &[u8], size: UintnSize, index: usize) -> Option<GptEntry<'_>> {
    let gpt = GptData::read(bytes, size)?;
    gpt.iter().nth(index)
}

/// Returns the fields of a header.
#[inline]
fn seen_header(header: &GptHeader) -> UefiGptHeader {
    let disk_guid = header.disk_guid.0;
    UefiGptHeader {
        signature: header.signature,
        my_lba: header.my_lba,
        alternate_lba: header.alternate_lba,
        first_usable_lba: header.first_usable_lba,
        last_usable_lba: header.last_usable_lba,
        partition_entry_lba: header.partition_entry_lba,
        revision: header.revision,
        header_size: header.header_size,
        header_crc32: header.header_crc32,
        reserved: header.reserved,
        entry_count: header.entry_count,
        entry_size: header.entry_size,
        entries_crc32: header.entries_crc32,
        disk_guid,
    }
}

/// Returns the fields of an entry.
#[inline]
fn seen_entry<'a>(entry: &GptEntry<'a>) -> UefiGptEntry<'a> {
    let type_guid = entry.type_guid.0;
    let unique_guid = entry.unique_guid.0;
    let name = units_of(&entry.name);
    UefiGptEntry {
        rest: Bytes::new(entry.rest),
        first_lba: entry.first_lba,
        last_lba: entry.last_lba,
        attributes: entry.attributes,
        type_guid,
        unique_guid,
        name,
    }
}

/// Returns the units of a name.
#[inline]
fn units_of(name: &UnalignedSlice<'_>) -> [u16; NAME_UNITS] {
    let mut units = [0; NAME_UNITS];
    for i in 0..NAME_UNITS {
        units[i] = name.get(i).unwrap_or(0);
    }
    units
}
