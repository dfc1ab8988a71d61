// @generated from proved source. It is not edited.

use crate::support::fallible::*;

use crate::test_support::samples::FIRMWARE_MAP;
use crate::test_support::{Refusing, bytes};
use crate::uefi_map::{
    MemoryDescriptor, MemoryMap, MemoryMapIter, MemoryMapKey, MemoryMapMeta, MemoryMapOwned,
    MemoryMapRef, MemoryMapRefMut,
};

/// Returns the sizes of a map, with the key 7 and the version of descriptors.
pub(crate) fn meta_of(map_size: usize, desc_size: usize) -> MemoryMapMeta {
    MemoryMapMeta {
        map_size,
        desc_size,
        map_key: MemoryMapKey::from_raw(7),
        desc_version: MemoryDescriptor::VERSION,
    }
}

/// Returns a number in decimal digits: a length, of which the greatest number of 64 bits is the
/// greatest.
pub(crate) fn number(text: &str) -> Option<usize> {
    Some(usize::try_from(text.parse::<u64>().ok()?).unwrap_or(usize::MAX))
}

/// Returns the sizes of a map, and its buffer, which has this many bytes of the fourth part: the
/// map's length, its stride, and the length of the buffer come before it.
pub(crate) fn meta_and_buffer(input: &str) -> Option<(MemoryMapMeta, Vec<u8>)> {
    let parts = input.split(" ; ").fallible_collect::<Vec<&str>>().ok()?;
    let [map_size, desc_size, length, digits] = parts.as_slice() else {
        return None;
    };
    let digits = if *digits == "FIRMWARE_MAP" {
        FIRMWARE_MAP
    } else {
        *digits
    };
    let mut buffer = bytes(digits).ok()?;
    buffer.truncate(number(length)?);
    Some((meta_of(number(map_size)?, number(desc_size)?), buffer))
}

/// Returns the fields of a descriptor: its type, padding, first physical and first virtual address,
/// count of pages and attributes.
pub(crate) fn fields(descriptor: &MemoryDescriptor) -> [u64; 6] {
    [
        u64::from(descriptor.ty.0),
        u64::from(descriptor.padding),
        descriptor.phys_start,
        descriptor.virt_start,
        descriptor.page_count,
        descriptor.att.bits(),
    ]
}

/// Returns whether `get` returns what the iterator gives, and nothing after it.
fn gets_each<M: MemoryMap>(map: &M) -> bool {
    let mut entries = map.entries().enumerate();
    entries.all(|(i, entry)| map.get(i) == Some(entry)) && map.get(map.len()).is_none()
}

/// Returns what a map has: its length, stride and version, its key, its count of descriptors,
/// whether it has none, whether they are sorted, and each of them.
fn shown<M: MemoryMap>(map: &M) -> Option<String> {
    let (meta, key) = (map.meta(), map.key());
    let sizes = (meta.map_size, meta.desc_size, meta.desc_version);
    let counts = (map.len(), map.is_empty(), map.is_sorted());
    let entries = map.entries().map(|entry| fields(&entry));
    let entries = entries.fallible_collect::<Vec<[u64; 6]>>().ok()?;
    if !gets_each(map) {
        return fallible_format!("another descriptor at an index").ok();
    }
    fallible_format!("Map {{ length, stride, version: {sizes:?}, {key:?}, \
         count, is_empty, is_sorted: {counts:?}, entries: {:?} }}",
        entries.as_slice()
    )
    .ok()
}

/// Returns what the map that a buffer begins with has, or the error.
fn read(buffer: &[u8], meta: MemoryMapMeta) -> Option<String> {
    match MemoryMapRef::new(buffer, meta) {
        Ok(map) if map.buffer() == buffer => shown(&map),
        Ok(_) => fallible_format!("another buffer").ok(),
        Err(error) => fallible_format!("Err({error:?})").ok(),
    }
}

/// Returns the same of a map that can be written, if the buffer has the bytes of the input.
fn written(input: &[u8], meta: MemoryMapMeta) -> Option<String> {
    let mut buffer = Vec::fallible_from_slice(input).ok()?;
    let text = match MemoryMapRefMut::new(buffer.as_mut_slice(), meta) {
        Ok(map) if map.buffer() == input => shown(&map)?,
        Ok(_) => return fallible_format!("another buffer").ok(),
        Err(error) => fallible_format!("Err({error:?})").ok()?,
    };
    if buffer.as_slice() != input {
        return fallible_format!("the buffer changed").ok();
    }
    Some(text)
}

/// Returns the same of a map that owns its buffer: of a map the buffer has its bytes alone, and with
/// an error it comes back.
fn owned(
    input: &[u8],
    meta: MemoryMapMeta,
) -> Option<String> {
    let buffer = Vec::fallible_from_slice(input).ok()?;
    let capacity = buffer.capacity();
    match MemoryMapOwned::from_initialized_mem(buffer, meta) {
        Ok(map) if input.get(..meta.map_size) == Some(map.buffer()) => shown(&map),
        Ok(_) => fallible_format!("another buffer").ok(),
        Err((error, buffer)) if buffer.as_slice() == input && buffer.capacity() == capacity => {
            fallible_format!("Err({error:?})").ok()
        }
        Err(_) => fallible_format!("another vector comes back").ok(),
    }
}

/// Returns what the map that a buffer begins with has, or the error: the same for a map that is
/// read, for one that can be written, and for one that owns its buffer.
pub(crate) fn map(input: &str) -> Option<String> {
    let (meta, buffer) = meta_and_buffer(input)?;
    let owned = owned(buffer.as_slice(), meta)?;
    let read = read(buffer.as_slice(), meta)?;
    let written = written(buffer.as_slice(), meta)?;
    let is_refused = read.as_str().starts_with("Err");
    if owned != read || written != read || meta.is_map_within(buffer.len()) == is_refused {
        return fallible_format!("{read}, and also {written}, {owned}").ok();
    }
    Some(read)
}

/// Returns the second descriptor of a map, by [`MemoryMap::at`].
pub(crate) fn descriptor_at(input: &str) -> Option<String> {
    let (meta, buffer) = meta_and_buffer(input)?;
    let map = MemoryMapRef::new(buffer.as_slice(), meta).ok()?;
    if map.len() < 2 {
        return None;
    }
    let fields = fields(&map.at(1));
    fallible_format!("{fields:?}").ok()
}

/// Returns where the next descriptor begins.
fn next_start(entries: &mut MemoryMapIter<'_>) -> Option<u64> {
    Some(entries.next()?.phys_start)
}

/// Returns what is left of an iterator at first, where the first descriptor begins, and what is left
/// after it; and of its copy where the first five begin, and what is left after these.
pub(crate) fn steps(input: &str) -> Option<String> {
    let (meta, buffer) = meta_and_buffer(input)?;
    let map = MemoryMapRef::new(buffer.as_slice(), meta).ok()?;
    let mut left = map.entries();
    let mut copy = left;
    let at_first = (left.len(), left.size_hint());
    let start = next_start(&mut left);
    let after = (left.len(), left.count());
    let starts = [
        next_start(&mut copy),
        next_start(&mut copy),
        next_start(&mut copy),
        next_start(&mut copy),
        next_start(&mut copy),
    ];
    let at_last = copy.size_hint();
    fallible_format!("({at_first:?}, {start:?}, {after:?}), ({starts:?}, {at_last:?})").ok()
}

/// Returns the bytes of descriptors of free memory that begin at these addresses, forty bytes each.
fn map_at(starts: &str) -> Option<Vec<u8>> {
    let mut bytes = Vec::new();
    for start in starts.split(" ; ") {
        for number in [7, start.parse::<u64>().ok()?, 0, 1, 0] {
            bytes.fallible_extend_from_slice(&u64::to_le_bytes(number)).ok()?;
        }
    }
    Some(bytes)
}

/// Returns whether a map of descriptors that begin at these addresses is sorted.
pub(crate) fn is_sorted(input: &str) -> Option<String> {
    let map = map_at(input)?;
    let map = MemoryMapRef::new(map.as_slice(), meta_of(map.len(), 40)).ok()?;
    let is_sorted = map.is_sorted();
    fallible_format!("{is_sorted}").ok()
}
