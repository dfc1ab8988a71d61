// @generated from proved source. It is not edited.

//! A file's name, written.

use core::fmt::Write as _;

use core::fmt;
use crate::formats::uefi_base::{UnalignedSlice, UnalignedSliceIter};
use crate::formats::uefi_path::{DevicePathNode, DeviceSubType, DeviceType};

/// Writes the name of the path of a file (UEFI 2.10, 10.3.5.4), without its NUL, or returns `None`
/// and writes nothing if the node is another, or its name has no text.
#[inline]
pub(crate) fn write_file_name(
    f: &mut fmt::Formatter<'_>,
    node: &DevicePathNode<'_>,
) -> Option<fmt::Result> {
    let data = node.data();
    if !is_file_path(node) || data.len() % 2 != 0 {
        return None;
    }
    let units = UnalignedSlice::new(data);
    if is_nul_ended(units) && is_paired(units) {
        write_units(f, units)
    } else {
        None
    }
}

/// Returns whether a node is the path of a file.
#[inline]
fn is_file_path(node: &DevicePathNode<'_>) -> bool {
    node.full_type() == (DeviceType::MEDIA, DeviceSubType::MEDIA_FILE_PATH)
}

/// Writes the characters of units before the last, or returns `None` and writes nothing if they
/// aren't a name.
#[inline]
fn write_units(
    f: &mut fmt::Formatter<'_>,
    units: UnalignedSlice<'_>,
) -> Option<fmt::Result> {
    let name = NameCharacters::new(units);
    if has_unpaired_surrogate(name) || !is_name(name) {
        return None;
    }
    Some(write_name(f, name))
}

/// Returns whether the units are one or more, and then a NUL.
#[inline]
fn is_nul_ended(units: UnalignedSlice<'_>) -> bool {
    units.len() > 1 && units.get(units.len() - 1) == Some(0)
}

/// Returns whether as many parentheses open as close.
#[inline]
fn is_paired(units: UnalignedSlice<'_>) -> bool {
    count_of(units, u16::from(b'(')) == count_of(units, u16::from(b')'))
}

/// Returns how many of the units are this one.
#[inline]
fn count_of(units: UnalignedSlice<'_>, wanted: u16) -> usize {
    units.iter().filter(|unit| *unit == wanted).count()
}

/// Returns whether a surrogate has no partner.
#[inline]
fn has_unpaired_surrogate(mut name: NameCharacters<'_>) -> bool {
    name.any(|character| character.is_none())
}

/// Returns whether the characters are a name that doesn't read as a node.
#[inline]
fn is_name(name: NameCharacters<'_>) -> bool {
    has_name_characters(name) && !reads_as_node(name)
}

/// Returns whether a name may have all the characters.
#[inline]
fn has_name_characters(mut name: NameCharacters<'_>) -> bool {
    name.all(|character| is_name_character(or_replacement(character)))
}

/// Returns whether the characters read as a node with arguments.
#[inline]
fn reads_as_node(name: NameCharacters<'_>) -> bool {
    name.map(or_replacement)
        .find(|character| !is_node_character(*character))
        == Some('(')
}

/// Writes the characters.
#[inline]
fn write_name(f: &mut fmt::Formatter<'_>, name: NameCharacters<'_>) -> fmt::Result {
    for character in name {
        f.write_char(or_replacement(character))?;
    }
    Ok(())
}

/// Returns whether a name may have the character.
#[inline]
pub(crate) fn is_name_character(character: char) -> bool {
    !is_control(character) && character != '/' && character != ','
}

/// Returns whether the character is a control character of ASCII or Latin-1, a separator of lines
/// or paragraphs, or a control of the writing direction.
#[inline]
pub(crate) fn is_control(character: char) -> bool {
    matches!(
        character,
        '\0'..='\u{1f}'
            | '\u{7f}'..='\u{9f}'
            | '\u{61c}'
            | '\u{200e}'..='\u{200f}'
            | '\u{2028}'..='\u{202e}'
            | '\u{2066}'..='\u{2069}'
    )
}

/// Returns whether a type of nodes may have the character in its name.
#[inline]
pub(crate) fn is_node_character(character: char) -> bool {
    character.is_ascii_alphanumeric() || character == '-'
}

/// Returns the character, or U+FFFD in place of a surrogate.
#[inline]
fn or_replacement(character: Option<char>) -> char {
    character.unwrap_or(char::REPLACEMENT_CHARACTER)
}

/// The characters of a name in UTF-16, with `None` for a surrogate that has no partner.
#[derive(Clone, Copy, Debug)]
struct NameCharacters<'a> {
    /// The units that weren't read yet, with those after the name.
    units: UnalignedSliceIter<'a>,
    /// How many of them are of the name.
    count: usize,
}

impl<'a> NameCharacters<'a> {
    /// Returns the characters of the units before the last.
    #[inline]
    fn new(units: UnalignedSlice<'a>) -> NameCharacters<'a> {
        NameCharacters {
            units: units.iter(),
            count: units.len().saturating_sub(1),
        }
    }

    /// Takes the next unit.
    #[inline]
    fn next_unit(&mut self) -> Option<u16> {
        if self.count == 0 {
            return None;
        }
        let unit = self.units.next()?;
        self.count -= 1;
        Some(unit)
    }
}

impl Iterator for NameCharacters<'_> {
    type Item = Option<char>;

    #[inline]
    fn next(&mut self) -> Option<Option<char>> {
        let first = self.next_unit()?;
        let mut after = *self;
        if let Some(second) = after.next_unit() {
            if let Some(character) = pair_character(first, second) {
                *self = after;
                return Some(Some(character));
            }
        }
        Some(lone_character(first))
    }
}

/// Returns the character of a unit that is in no pair, or `None` for a surrogate.
#[inline]
fn lone_character(unit: u16) -> Option<char> {
    char::from_u32(u32::from(unit))
}

/// Returns the character of a pair of surrogates, or `None` if the units aren't one.
#[inline]
fn pair_character(first: u16, second: u16) -> Option<char> {
    let (high, low) = (0xd800..0xdc00, 0xdc00..0xe000);
    if !high.contains(&first) || !low.contains(&second) {
        return None;
    }
    let high = u32::from(first) - 0xd800;
    char::from_u32(0x1_0000 + high * 0x400 + (u32::from(second) - 0xdc00))
}
