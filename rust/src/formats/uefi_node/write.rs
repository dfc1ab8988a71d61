// @generated from proved source. It is not edited.

use crate::formats::uefi_node::read::{NodeKind, NodeValue};
use crate::formats::uefi_base::UnalignedSlice;
use crate::formats::uefi_base::buffer::put;
use crate::formats::uefi_path::build::BuildError;
use crate::formats::uefi_path::{DevicePathHeader, DeviceSubType, DeviceType};

// The length of a header, and the greatest length of a node.
pub(crate) const HEADER_LENGTH: usize = 4;

const GREATEST_LENGTH: usize = 0xffff;

/// What follows the fields of a value.
#[derive(Clone, Copy, Debug)]
pub(crate) enum Tail<'a> {
    /// Bytes.
    Bytes(&'a [u8]),
    /// Parts, one after another.
    Parts(&'a [&'a [u8]]),
    /// Units of 16 bits.
    Units(UnalignedSlice<'a>),
}

impl Tail<'_> {
    /// Returns the length in bytes, or `None` if no node has so many.
    #[inline]
    fn length(&self) -> Option<usize> {
        match self {
            Tail::Bytes(bytes) if bytes.len() <= GREATEST_LENGTH => Some(bytes.len()),
            Tail::Parts(parts) => length_of(parts),
            Tail::Units(units) if units.len() <= GREATEST_LENGTH / 2 => Some(2 * units.len()),
            _ => None,
        }
    }

    /// Puts the bytes at an offset of a buffer that has room for them.
    #[inline]
    fn put(&self, buffer: &mut [u8], offset: usize) {
        match self {
            Tail::Bytes(bytes) => put(buffer, offset, bytes),
            Tail::Parts(parts) => put_parts(buffer, offset, parts),
            Tail::Units(units) => put_units(buffer, offset, units),
        }
    }
}

/// Returns the length of all parts, or `None` if no node has so many bytes.
#[inline]
fn length_of(parts: &[&[u8]]) -> Option<usize> {
    match parts {
        [] => Some(0),
        [part, others @ ..] => {
            let after = length_of(others)?;
            if part.len() > GREATEST_LENGTH - after {
                return None;
            }
            Some(part.len() + after)
        }
    }
}

/// Puts units, two bytes each, little-endian, at an offset of a buffer that has room for them.
#[inline]
fn put_units(buffer: &mut [u8], offset: usize, units: &UnalignedSlice<'_>) {
    for i in 0..units.len() {
        let unit = units.get(i).unwrap_or(0);
        put(buffer, offset + 2 * i, &unit.to_le_bytes());
    }
}

/// Puts the parts, one after another, at an offset of a buffer that has room for them.
#[inline]
fn put_parts(buffer: &mut [u8], offset: usize, parts: &[&[u8]]) {
    if let [part, others @ ..] = parts {
        put(buffer, offset, part);
        put_parts(buffer, offset + part.len(), others);
    }
}

/// Returns the bytes of the parts, one after another.
#[inline]
pub(crate) fn joined<const N: usize>(parts: &[&[u8]]) -> [u8; N] {
    let mut bytes = [0; N];
    put_parts(&mut bytes, 0, parts);
    bytes
}

/// Writes the node of a value, which has these fields and this tail.
#[inline]
pub(crate) fn write_node<'a, T: NodeValue<'a>>(
    buffer: &mut [u8],
    kind: NodeKind,
    value: &T,
    fields: &[u8],
    tail: Tail<'_>,
) -> Result<usize, BuildError> {
    let _value = value;
    write_parts(buffer, kind.full_type, fields, &tail)
}

/// Writes the node with this type and subtype, whose data are the fields and then the tail.
#[inline]
fn write_parts(
    buffer: &mut [u8],
    full_type: (DeviceType, DeviceSubType),
    fields: &[u8],
    tail: &Tail<'_>,
) -> Result<usize, BuildError> {
    let Some(after) = tail.length() else {
        return Err(BuildError::NodeTooBig);
    };
    let length = HEADER_LENGTH + fields.len() + after;
    if length > GREATEST_LENGTH {
        return Err(BuildError::NodeTooBig);
    }
    if buffer.len() < length {
        return Err(BuildError::BufferTooSmall(length));
    }
    let (device_type, sub_type) = full_type;
    let header = DevicePathHeader::new(device_type, sub_type, length as u16);
    put_node(buffer, header.to_bytes(), fields, tail);
    Ok(length)
}

/// Puts a node at the start of a buffer that has room for it: its header, its fields and its tail.
#[inline]
fn put_node(buffer: &mut [u8], header: [u8; 4], fields: &[u8], tail: &Tail<'_>) {
    put(buffer, 0, &header);
    put(buffer, HEADER_LENGTH, fields);
    tail.put(buffer, HEADER_LENGTH + fields.len());
}
