// @generated from proved source. It is not edited.

//! What `map` lists of bytes, and what it refuses.

use crate::uefi_listing::listing::Outcome;
use crate::shown::HexNumber;
use crate::support::alloc::AllocError;
use uefi_formats::mem::memory_map::{MemoryDescriptor, MemoryMap, MemoryMapMeta, MemoryMapRef};

/// Appends the lines of a memory map: for each descriptor `entry TYPE PHYS VIRT PAGES ATTRIBUTES`,
/// type and page count in decimal, the others as `0x` and hex; `sorted yes` or `sorted no`, as the
/// descriptors are in the order of their addresses or not; last `entries N`, their count.
///
/// # Errors
///
/// [`AllocError`] if an allocation fails. The text may have grown then.
pub fn push_map(
    text: &mut String,
    map: &MemoryMapRef<'_>,
) -> Result<(), AllocError> {
    push_entries(text, map)?;
    let (sorted, count) = (yes_or_no(map.is_sorted()), map.entries().len());
    fallible_writeln!(text, "sorted {sorted}\nentries {count}")?;
    Ok(())
}

/// Appends the lines of a map's entries.
fn push_entries(
    text: &mut String,
    map: &MemoryMapRef<'_>,
) -> Result<(), AllocError> {
    for entry in map.entries() {
        push_entry(text, &entry)?;
    }
    Ok(())
}

/// Appends the line of an entry.
fn push_entry(
    text: &mut String,
    entry: &MemoryDescriptor,
) -> Result<(), AllocError> {
    let (ty, pages) = (entry.ty.0, entry.page_count);
    let (start, virt_start) = (HexNumber(entry.phys_start), HexNumber(entry.virt_start));
    let attributes = HexNumber(entry.att.bits());
    fallible_writeln!(text, "entry {ty} {start} {virt_start} {pages} {attributes}")
}

/// Returns the word for a truth value.
fn yes_or_no(value: bool) -> &'static str {
    if value { "yes" } else { "no" }
}

/// Appends the listing of all the bytes as a memory map at this stride.
///
/// # Errors
///
/// [`AllocError`] if an allocation fails. The text may have grown then.
pub(crate) fn push_map_listing(
    text: &mut String,
    bytes: &[u8],
    stride: usize,
) -> Result<Outcome, AllocError> {
    match MemoryMapRef::new(bytes, file_meta(bytes.len(), stride)) {
        Ok(map) => {
            push_map(text, &map)?;
            Ok(Outcome::Listed)
        }
        Err(_) => {
            fallible_writeln!(text, "refused InvalidSize")?;
            Ok(Outcome::Refused)
        }
    }
}

/// Returns the metadata of a file of this length as a memory map at this stride.
fn file_meta(map_size: usize, desc_size: usize) -> MemoryMapMeta {
    MemoryMapMeta {
        desc_version: MemoryDescriptor::VERSION,
        ..MemoryMapMeta::of(map_size, desc_size)
    }
}
