// @generated from proved source. It is not edited.

//! IPv6 addresses, read (RFC 4291, 2.2).

use crate::formats::uefi_path_text::parse::cut::cut;
use crate::formats::uefi_path_text::parse::ipv4::read_ipv4;
use crate::formats::uefi_path_text::parse::number::read_digits;
use crate::formats::uefi_path_text::parse::shape::is_hex_digit;
use crate::formats::uefi_path_text::write::bytes::byte_at;
use crate::formats::uefi_base::buffer::put;

/// The groups of an address that are on one side of a `::`, or all of them.
#[derive(Clone, Copy)]
struct Side {
    /// Their bytes, and zeros after them.
    bytes: [u8; 16],
    /// The number of their bytes.
    len: usize,
}

impl core::fmt::Debug for Side {
    fn fmt(&self, f: &mut core::fmt::Formatter<'_>) -> core::fmt::Result {
        f.debug_struct("Side")
            .field("bytes", &crate::support::debug::Bytes(&self.bytes))
            .field("len", &self.len)
            .finish()
    }
}

impl Side {
    /// Returns no groups.
    #[inline]
    fn new() -> Side {
        Side {
            bytes: [0; 16],
            len: 0,
        }
    }

    /// Returns the groups with more bytes.
    #[inline]
    fn with(self, more: &[u8]) -> Side {
        let mut bytes = self.bytes;
        put(&mut bytes, self.len, more);
        Side {
            bytes,
            len: self.len + more.len(),
        }
    }

    /// Returns the address with these groups before a `::` and others after it.
    #[inline]
    fn around(self, back: Side) -> [u8; 16] {
        let mut address = self.bytes;
        put(&mut address, 16 - back.len, &back.bytes[..back.len]);
        address
    }
}

/// Reads an IPv6 address: groups of four hex digits or fewer. One `::` can be in the place of groups
/// of zeros, and an IPv4 address in that of the last two groups.
///
/// # Errors
///
/// The offset of the first character that no address has there.
#[inline]
pub(crate) fn read_ipv6(text: &[u8]) -> Result<[u8; 16], usize> {
    match find_gap(text) {
        Some(gap) => read_around(&text[..gap], &text[gap + 2..]),
        None => read_whole(text),
    }
}

/// Returns the offset of the first `::`.
#[inline]
fn find_gap(text: &[u8]) -> Option<usize> {
    for (offset, c) in text.iter().enumerate() {
        let next = byte_at(text, offset + 1);
        if *c == b':' && next == b':' {
            return Some(offset);
        }
    }
    None
}

/// Reads an address without a `::`.
#[inline]
fn read_whole(text: &[u8]) -> Result<[u8; 16], usize> {
    match read_front(text) {
        Ok(side) if side.len == 16 => Ok(side.bytes),
        Ok(_) => Err(text.len()),
        Err(offset) => Err(offset),
    }
}

/// Reads an address by what is before its `::` and what is after it.
#[inline]
fn read_around(front: &[u8], back: &[u8]) -> Result<[u8; 16], usize> {
    let before = match read_front(front) {
        Ok(side) if side.len <= 14 => side,
        Ok(_) => return Err(front.len()),
        Err(offset) => return Err(offset),
    };
    match read_side(back, 0, 14 - before.len) {
        Ok(after) => Ok(before.around(after)),
        Err(offset) => Err(front.len() + 2 + offset),
    }
}

/// Reads the groups that an address begins with, which are all or are before a `::`.
#[inline]
fn read_front(text: &[u8]) -> Result<Side, usize> {
    match (read_side(text, 16, 16), text) {
        (Err(_), [b':', ..]) => Err(1),
        (side, _) => side,
    }
}

/// Reads groups of at most `room` bytes. An IPv4 address can be the last two, if these then have at
/// least `least` bytes.
#[inline]
fn read_side(text: &[u8], least: usize, room: usize) -> Result<Side, usize> {
    let (side, rest) = read_groups(text, room);
    let Some(parts) = rest else {
        return Ok(side);
    };
    let start = text.len() - parts.len();
    if side.len + 2 > room {
        return Err(start.saturating_sub(1));
    }
    match read_last(parts, is_within(side.len + 4, least, room)) {
        Ok(address) => Ok(side.with(&address)),
        Err(offset) => Err(start + offset),
    }
}

/// Returns whether a number of bytes is between these.
#[inline]
fn is_within(len: usize, least: usize, most: usize) -> bool {
    (least..=most).contains(&len)
}

/// Reads the groups that a text begins with, at most `room` bytes, and returns what follows them.
#[inline]
fn read_groups(text: &[u8], room: usize) -> (Side, Option<&[u8]>) {
    let mut side = Side::new();
    let mut rest = some_text(text);
    while let Some(parts) = rest {
        if side.len + 2 > room {
            return (side, rest);
        }
        let (part, others) = cut(parts, b':');
        let Some(group) = group_of(part) else {
            return (side, rest);
        };
        side = side.with(&group);
        rest = others;
    }
    (side, None)
}

/// Returns a text, if it isn't empty.
#[inline]
fn some_text(text: &[u8]) -> Option<&[u8]> {
    if text.is_empty() { None } else { Some(text) }
}

/// Reads a group: one to four hex digits.
#[inline]
fn group_of(part: &[u8]) -> Option<[u8; 2]> {
    if part.len() > 4 {
        return None;
    }
    match read_digits(part, 16, 0xffff) {
        Ok(number) => Some((number as u16).to_be_bytes()),
        Err(_) => None,
    }
}

/// Reads an IPv4 address, if there can be one, where a text doesn't begin with a group.
#[inline]
fn read_last(text: &[u8], can_be_ipv4: bool) -> Result<[u8; 4], usize> {
    let (part, others) = cut(text, b':');
    let offset = group_len(part);
    if !can_be_ipv4 {
        return Err(offset);
    }
    match read_ipv4_end(part) {
        Ok(address) if others.is_none() => Ok(address),
        Ok(_) => Err(part.len()),
        Err(other) => Err(offset.max(other)),
    }
}

/// Returns how many characters a text begins with that a group can have.
#[inline]
fn group_len(part: &[u8]) -> usize {
    part.iter()
        .take(4)
        .take_while(|c| is_hex_digit(**c))
        .count()
}

/// Reads an IPv4 address, each number of which has at most three digits.
#[inline]
fn read_ipv4_end(part: &[u8]) -> Result<[u8; 4], usize> {
    let Some(long) = find_long(part) else {
        return read_ipv4(part);
    };
    match read_ipv4(part) {
        Ok(_) => Err(long),
        Err(offset) => Err(long.min(offset)),
    }
}

/// Returns the offset of the first fourth character of a number of an IPv4 address.
#[inline]
fn find_long(text: &[u8]) -> Option<usize> {
    let mut rest = Some(text);
    while let Some(parts) = rest {
        let (number, others) = cut(parts, b'.');
        if number.len() > 3 {
            return Some(text.len() - parts.len() + 3);
        }
        rest = others;
    }
    None
}
