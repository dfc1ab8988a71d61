// @generated from proved source. It is not edited.

use crate::formats::uefi_path_text::form::shape::Shape;
use crate::formats::uefi_path_text::parse::shape::byte_of_digits;

/// What an argument stands for in the data of a node.
#[derive(Clone, Copy, Debug)]
pub(crate) enum Value<'a> {
    /// A number in this many bytes, at most eight, the lowest first.
    Number(u64, usize),
    /// A number in eight bytes, the highest first.
    BigEndian(u64),
    /// The bytes of the digits of a text of this shape.
    Digits(Shape, &'a [u8]),
    /// The bytes of hex digits, two each.
    Pairs(&'a [u8]),
    /// An IPv4 address.
    Ipv4([u8; 4]),
    /// An IPv4 address in 16 bytes.
    Ipv4Server([u8; 4]),
    /// An IPv6 address.
    Ipv6([u8; 16]),
    /// A text.
    Text(&'a [u8]),
    /// A text in units of two bytes.
    Units(&'a [u8]),
}

impl Value<'_> {
    /// Returns the number of bytes.
    #[inline]
    pub(crate) fn len(&self) -> usize {
        match *self {
            Value::Number(_, size) => size,
            Value::BigEndian(_) => 8,
            Value::Digits(shape, _) => shape.offsets().len(),
            Value::Pairs(text) => text.len() / 2,
            Value::Ipv4(_) => 4,
            Value::Ipv4Server(_) | Value::Ipv6(_) => 16,
            Value::Text(text) => text.len(),
            Value::Units(text) => 2 * text.len(),
        }
    }

    /// Writes the bytes.
    #[inline]
    pub(crate) fn put(&self, bytes: &mut [u8]) {
        match *self {
            Value::Number(number, size) => put_number(bytes, number, size),
            Value::BigEndian(number) => bytes.copy_from_slice(&number.to_be_bytes()),
            Value::Digits(shape, text) => put_digits(bytes, shape, text),
            Value::Pairs(text) => put_pairs(bytes, text),
            Value::Ipv4(address) => bytes.copy_from_slice(&address),
            Value::Ipv4Server(address) => {
                let (first, zeros) = bytes.split_at_mut(4);
                first.copy_from_slice(&address);
                zeros.fill(0);
            }
            Value::Ipv6(address) => bytes.copy_from_slice(&address),
            Value::Text(text) => bytes.copy_from_slice(text),
            Value::Units(text) => put_units(bytes, text),
        }
    }
}

/// Writes a number in this many bytes, the lowest first.
#[inline]
fn put_number(bytes: &mut [u8], number: u64, size: usize) {
    bytes.copy_from_slice(&number.to_le_bytes()[..size]);
}

/// Writes the bytes of the digits of a text of this shape.
#[inline]
fn put_digits(bytes: &mut [u8], shape: Shape, text: &[u8]) {
    for (i, offset) in shape.offsets().iter().enumerate() {
        bytes[i] = byte_of_digits(text[*offset], text[*offset + 1]);
    }
}

/// Writes the bytes of hex digits, two each.
#[inline]
fn put_pairs(bytes: &mut [u8], text: &[u8]) {
    for (i, byte) in bytes.iter_mut().enumerate() {
        *byte = byte_of_digits(text[2 * i], text[2 * i + 1]);
    }
}

/// Writes a text in units of two bytes.
#[inline]
fn put_units(bytes: &mut [u8], text: &[u8]) {
    for (i, c) in text.iter().enumerate() {
        bytes[2 * i] = *c;
        bytes[2 * i + 1] = 0;
    }
}
