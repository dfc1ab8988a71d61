// @generated from proved source. It is not edited.

use crate::support::fallible::*;

use crate::map_rows::maps::{fields, meta_and_buffer, meta_of, number};
use crate::map_rows::values::descriptor;
use crate::rows::hex_digits;
use crate::test_support::{Refusing, bytes};
use crate::uefi_map::{
    MemoryDescriptor, MemoryMap, MemoryMapMeta, MemoryMapMut, MemoryMapOwned, MemoryMapRefMut,
    MemoryType,
};

/// A descriptor that is set at an index of a map.
#[derive(Debug)]
struct Setting {
    index: usize,
    descriptor: MemoryDescriptor,
    meta: MemoryMapMeta,
    map: Vec<u8>,
}

/// Returns what an input has: an index, forty bytes of a descriptor, the stride and a map.
fn setting_of(input: &str) -> Option<Setting> {
    let parts = input.split(" ; ").fallible_collect::<Vec<&str>>().ok()?;
    let [index, digits, desc_size, map] = parts.as_slice() else {
        return None;
    };
    let map = bytes(map).ok()?;
    Some(Setting {
        index: number(index)?,
        descriptor: descriptor(bytes(digits).ok()?.as_slice())?,
        meta: meta_of(map.len(), number(desc_size)?),
        map,
    })
}

/// Sets a descriptor: returns the one that was there, and the one that is there after, then the
/// count, the key, whether the descriptors are sorted, and the bytes of the map.
fn set_in<M: MemoryMapMut>(
    map: &mut M,
    index: usize,
    descriptor: MemoryDescriptor,
) -> Option<String> {
    let before = map.set(index, descriptor);
    let entries = [before, map.get(index)].map(|entry| entry.map(|it| fields(&it)));
    let seen = (map.len(), map.key(), map.is_sorted());
    let buffer = hex_digits(map.buffer()).ok()?;
    fallible_format!("{entries:?}, {seen:?}, {buffer}").ok()
}

/// Sets a descriptor of a map that owns its buffer.
fn set_owned(setting: &Setting) -> Option<String> {
    let buffer = Vec::fallible_from_slice(setting.map.as_slice()).ok()?;
    let mut map = MemoryMapOwned::from_initialized_mem(buffer, setting.meta).ok()?;
    set_in(&mut map, setting.index, setting.descriptor)
}

/// Returns what [`set_in`] returns: the same for a map over a buffer, whose bytes are then those of
/// the map, and for one that owns its buffer.
pub(crate) fn set(input: &str) -> Option<String> {
    let mut setting = setting_of(input)?;
    let owned = set_owned(&setting)?;
    let mut map = MemoryMapRefMut::new(setting.map.as_mut_slice(), setting.meta).ok()?;
    let text = set_in(&mut map, setting.index, setting.descriptor)?;
    let buffer = hex_digits(setting.map.as_slice()).ok()?;
    if owned != text || !text.as_str().ends_with(buffer.as_str()) {
        return fallible_format!("{text}, and also {owned}, {buffer}").ok();
    }
    Some(text)
}

/// Sets a descriptor by [`MemoryMapMut::set_at`], and returns the count, the first descriptor and the
/// one that was set, by `at`.
pub(crate) fn set_at(input: &str) -> Option<String> {
    let mut setting = setting_of(input)?;
    if !setting.meta.is_map_within(setting.map.len()) {
        return None;
    }
    let mut map = MemoryMapRefMut::over(setting.map.as_mut_slice(), setting.meta);
    if map.len() <= setting.index {
        return None;
    }
    map.set_at(setting.index, setting.descriptor);
    let seen = (
        map.len(),
        fields(&map.at(0)),
        fields(&map.at(setting.index)),
    );
    fallible_format!("{seen:?}").ok()
}

/// The count of a map, the lengths of its buffer, and the type of its second descriptor once a byte
/// of the buffer is written.
type Written = (usize, usize, usize, Option<u32>);

/// Writes a byte into the buffer of a map.
fn write_in<M: MemoryMapMut>(map: &mut M, offset: usize, byte: u8) -> Option<Written> {
    let (count, length, length_mut) = (map.len(), map.buffer().len(), map.buffer_mut().len());
    *map.buffer_mut().get_mut(offset)? = byte;
    let MemoryType(second) = map.get(1)?.ty;
    Some((count, length, length_mut, Some(second)))
}

/// Writes a byte into the buffer of a map that owns it.
fn write_owned(
    meta: MemoryMapMeta,
    buffer: &[u8],
    offset: usize,
    byte: u8,
) -> Option<Written> {
    let buffer = Vec::fallible_from_slice(buffer).ok()?;
    let mut map = MemoryMapOwned::from_initialized_mem(buffer, meta).ok()?;
    write_in(&mut map, offset, byte)
}

/// Writes a byte at an offset into the buffers of a map, which come after both: returns what
/// [`write_in`] does of a map over a buffer, the byte that this then has there, and what it does of a
/// map that owns its buffer.
pub(crate) fn write_byte(input: &str) -> Option<String> {
    let (offset, rest) = input.split_once(" ; ")?;
    let (byte, rest) = rest.split_once(" ; ")?;
    let offset = number(offset)?;
    let byte = bytes(byte).ok()?.first().copied()?;
    let (meta, mut buffer) = meta_and_buffer(rest)?;
    let owned = write_owned(meta, buffer.as_slice(), offset, byte)?;
    let mut map = MemoryMapRefMut::new(buffer.as_mut_slice(), meta).ok()?;
    let borrowed = write_in(&mut map, offset, byte)?;
    let found = buffer.get(offset).copied()?;
    fallible_format!("{borrowed:?}, {found}, {owned:?}").ok()
}
