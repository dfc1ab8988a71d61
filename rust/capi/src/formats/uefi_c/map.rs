// @generated from proved source. It is not edited.

use core::mem::MaybeUninit;
use crate::bytes::{Buffer, Bytes};

use crate::formats::uefi_c::status::{self, UefiStatus};
use crate::formats::uefi_map::{
    MemoryAttribute, MemoryDescriptor, MemoryMap, MemoryMapKey, MemoryMapMeta, MemoryMapMut,
    MemoryMapRef, MemoryMapRefMut, MemoryType,
};

/// A descriptor of a memory map.
#[derive(Clone, Copy, Debug)]
#[repr(C)]
pub struct UefiDescriptor {
    /// What the memory is used for.
    pub memory_type: u32,
    /// The four bytes after the type, without meaning.
    pub padding: u32,
    /// The first physical address.
    pub phys_start: u64,
    /// The first virtual address.
    pub virt_start: u64,
    /// The count of pages, of 4096 bytes each.
    pub page_count: u64,
    /// What the memory can do, and what it is used for at run time.
    pub attribute: u64,
}

/// Tests that all the bytes are a map with this stride.
#[unsafe(no_mangle)]
pub extern "C" fn uefi_map_check(map: Bytes<'_>, stride: usize) -> UefiStatus {
    let map = map.as_slice();
    if sizes_of(map.len(), stride).is_map_within(map.len()) {
        status::OK
    } else {
        status::NOT_MAP
    }
}

/// Reads the descriptor at an index of the map that all the bytes are.
#[unsafe(no_mangle)]
pub extern "C" fn uefi_map_entry(
    map: Bytes<'_>,
    stride: usize,
    index: usize,
    out: &mut MaybeUninit<UefiDescriptor>,
) -> UefiStatus {
    let map = map.as_slice();
    let Ok(map) = MemoryMapRef::new(map, sizes_of(map.len(), stride)) else {
        return status::NOT_MAP;
    };
    let Some(entry) = map.get(index) else {
        return status::END;
    };
    out.write(UefiDescriptor {
        memory_type: entry.ty.0,
        padding: entry.padding,
        phys_start: entry.phys_start,
        virt_start: entry.virt_start,
        page_count: entry.page_count,
        attribute: entry.att.bits(),
    });
    status::OK
}

/// Writes the descriptor at an index of the map that all the bytes are: its forty bytes.
#[unsafe(no_mangle)]
pub extern "C" fn uefi_map_set(
    map: Buffer<'_>,
    stride: usize,
    index: usize,
    entry: &UefiDescriptor,
) -> UefiStatus {
    let map = map.into_slice();
    let sizes = sizes_of(map.len(), stride);
    if !sizes.is_map_within(map.len()) {
        return status::NOT_MAP;
    }
    let mut map = MemoryMapRefMut::over(map, sizes);
    match map.set(index, descriptor_of(entry)) {
        Some(_) => status::OK,
        None => status::END,
    }
}

/// Returns the descriptor of these numbers.
#[inline]
fn descriptor_of(entry: &UefiDescriptor) -> MemoryDescriptor {
    MemoryDescriptor {
        ty: MemoryType(entry.memory_type),
        padding: entry.padding,
        phys_start: entry.phys_start,
        virt_start: entry.virt_start,
        page_count: entry.page_count,
        att: MemoryAttribute::from_bits_retain(entry.attribute),
    }
}

/// Returns whether all the bytes are a map with this stride, and no descriptor begins at a lower
/// physical address than the one before it.
#[unsafe(no_mangle)]
pub extern "C" fn uefi_map_is_sorted(map: Bytes<'_>, stride: usize) -> bool {
    let map = map.as_slice();
    match MemoryMapRef::new(map, sizes_of(map.len(), stride)) {
        Ok(map) => map.is_sorted(),
        Err(_) => false,
    }
}

/// Returns the sizes of a map that is all the bytes.
#[inline]
fn sizes_of(map_size: usize, desc_size: usize) -> MemoryMapMeta {
    MemoryMapMeta {
        map_size,
        desc_size,
        map_key: MemoryMapKey::from_raw(0),
        desc_version: MemoryDescriptor::VERSION,
    }
}
