// @generated from proved source. It is not edited.

//! A file's name, read.

use crate::formats::uefi_path_text::parse::data::GREATEST_DATA;
use crate::formats::uefi_path_text::text::file_name::is_name_character;
use crate::formats::uefi_base::buffer::{put, put_units};

/// The number of bytes of a unit.
const UNIT_LENGTH: usize = 2;

/// A file's name.
#[derive(Clone, Copy, Debug)]
pub(crate) struct FileName<'a> {
    /// The name, without the NUL that ends it in a node.
    name: &'a str,
}

impl<'a> FileName<'a> {
    /// Returns the name that a text is.
    #[inline]
    pub(crate) fn new(name: &'a str) -> FileName<'a> {
        FileName { name }
    }

    /// Returns the length of the data of the name's node, or `None` if no node has so many bytes.
    #[inline]
    pub(crate) fn data_len(&self) -> Option<usize> {
        data_len(self.name)
    }

    /// Writes the data of the name's node at an offset: the units of the characters, and a NUL.
    #[inline]
    pub(crate) fn put_data(&self, buffer: &mut [u8], offset: usize) {
        put_data(buffer, offset, self.name);
    }
}

/// Returns the length of the data of a name's node, or `None` if no node has so many bytes.
#[inline]
pub(crate) fn data_len(name: &str) -> Option<usize> {
    let mut size = UNIT_LENGTH;
    for character in name.chars() {
        size += UNIT_LENGTH * character.len_utf16();
        if size > GREATEST_DATA {
            return None;
        }
    }
    Some(size)
}

/// Writes the data of a name's node at an offset: the units of the characters, and a NUL.
#[inline]
fn put_data(buffer: &mut [u8], offset: usize, name: &str) {
    let mut end = offset;
    for character in name.chars() {
        let mut room = [0; 2];
        let units = character.encode_utf16(&mut room);
        put_units(buffer, end, units);
        end += UNIT_LENGTH * units.len();
    }
    put(buffer, end, &[0, 0]);
}

/// Checks that a name may have all characters of a text.
///
/// # Errors
///
/// The offset of the first character that a name may not have.
#[inline]
pub(crate) fn check_name(name: &str) -> Result<(), usize> {
    for (offset, character) in name.char_indices() {
        if !is_name_character(character) {
            return Err(offset);
        }
    }
    Ok(())
}

/// Returns the offset of the first character from which on a name's node is too long.
#[inline]
pub(crate) fn first_excess(name: &str) -> usize {
    let mut size = UNIT_LENGTH;
    for (offset, character) in name.char_indices() {
        size += UNIT_LENGTH * character.len_utf16();
        if size > GREATEST_DATA {
            return offset;
        }
    }
    name.len()
}
