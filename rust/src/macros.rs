//! `guid!` and `cstr16!`, over functions that the compiler runs. They are written by hand, and
//! aren't proved.

use crate::{CStr16, Guid};

/// Returns the [`Guid`](crate::Guid) with this text, which the compiler reads. The text may be that
/// of a constant.
///
/// # Errors
///
/// The compiler reports an error if the text isn't one that [`Guid`](crate::Guid) reads from `str`.
///
/// # Examples
///
/// ```
/// use uefi_formats::{Guid, guid};
///
/// const GLOBAL_VARIABLE: Guid = guid!("8be4df61-93ca-11d2-aa0d-00e098032b8c");
/// assert_eq!(GLOBAL_VARIABLE.to_string(), "8be4df61-93ca-11d2-aa0d-00e098032b8c");
/// ```
///
/// A digit is missing:
///
/// ```compile_fail,E0080
/// let it = uefi_formats::guid!("8be4df61-93ca-11d2-aa0d-00e098032b8");
/// ```
///
/// A digit instead of the first dash, and a letter that isn't a digit:
///
/// ```compile_fail,E0080
/// let it = uefi_formats::guid!("8be4df61093ca-11d2-aa0d-00e098032b8c");
/// ```
///
/// ```compile_fail,E0080
/// let it = uefi_formats::guid!("8be4df61-93ca-11d2-aa0d-00e098032b8g");
/// ```
#[macro_export]
macro_rules! guid {
    ($text:expr $(,)?) => {
        const { $crate::__macros::guid($text) }
    };
}

/// Returns the [`CStr16`](crate::CStr16) with these characters and a NUL, whose units the compiler
/// writes. It lives for the whole program. Without an argument the text is empty. The argument may
/// be a constant. The value isn't a constant itself.
///
/// # Errors
///
/// The compiler reports an error if a character is U+0000 or above U+FFFF.
///
/// # Examples
///
/// ```
/// use uefi_formats::{CStr16, cstr16};
///
/// let name: CStr16<'static> = cstr16!("Größe €");
/// assert_eq!(name, "Größe €");
/// assert_eq!(name.as_u16_with_nul(), [0x47, 0x72, 0xf6, 0xdf, 0x65, 0x20, 0x20ac, 0]);
/// assert!(cstr16!().is_empty());
/// ```
///
/// A NUL, and a character that has two units in UTF-16:
///
/// ```compile_fail,E0080
/// let name = uefi_formats::cstr16!("a\0");
/// ```
///
/// ```compile_fail,E0080
/// let name = uefi_formats::cstr16!("\u{10000}");
/// ```
#[macro_export]
macro_rules! cstr16 {
    () => {
        $crate::cstr16!("")
    };
    ($text:expr $(,)?) => {{
        const UNITS: [u16; $crate::__macros::unit_count($text)] = $crate::__macros::units($text);
        $crate::__macros::cstr16(&UNITS)
    }};
}

/// The index of the first digit of each byte of a GUID, in its text.
const DIGITS: [usize; 16] = [6, 4, 2, 0, 11, 9, 16, 14, 19, 21, 24, 26, 28, 30, 32, 34];

/// The indexes of the dashes in the text of a GUID.
const DASHES: [usize; 4] = [8, 13, 18, 23];

/// Returns the GUID with this text.
///
/// # Panics
///
/// If the text isn't one that [`Guid`] reads from `str`.
pub const fn guid(text: &str) -> Guid {
    let text = text.as_bytes();
    assert!(text.len() == 36, "the text of a GUID has 36 bytes");
    let mut dash = 0;
    while dash < DASHES.len() {
        assert!(
            text[DASHES[dash]] == b'-',
            "a GUID has dashes at 8, 13, 18 and 23"
        );
        dash += 1;
    }
    let mut bytes = [0; 16];
    let mut index = 0;
    while index < bytes.len() {
        let digit = DIGITS[index];
        bytes[index] = 16 * hex_value(text[digit]) + hex_value(text[digit + 1]);
        index += 1;
    }
    Guid(bytes)
}

/// Returns the value of a hex digit.
///
/// # Panics
///
/// If the byte isn't a hex digit.
const fn hex_value(digit: u8) -> u8 {
    match digit {
        b'0'..=b'9' => digit - b'0',
        b'A'..=b'F' => digit - b'A' + 10,
        b'a'..=b'f' => digit - b'a' + 10,
        _ => panic!("what isn't a dash of a GUID is a hex digit"),
    }
}

/// Returns the number of the units of a text, including the NUL: one for each of its characters.
pub const fn unit_count(text: &str) -> usize {
    let text = text.as_bytes();
    let mut count = 1;
    let mut index = 0;
    while index < text.len() {
        index += length_of_character(text[index]);
        count += 1;
    }
    count
}

/// Returns the units of a text, including the NUL.
///
/// # Panics
///
/// If a character is U+0000 or above U+FFFF, or if `N` isn't [`unit_count`].
pub const fn units<const N: usize>(text: &str) -> [u16; N] {
    let text = text.as_bytes();
    let mut units = [0; N];
    let mut index = 0;
    let mut unit = 0;
    while index < text.len() {
        units[unit] = unit_at(text, index);
        index += length_of_character(text[index]);
        unit += 1;
    }
    assert!(unit + 1 == N);
    units
}

/// Returns the length of a character in UTF-8, by its first byte.
const fn length_of_character(first: u8) -> usize {
    match first {
        0..0x80 => 1,
        0x80..0xe0 => 2,
        0xe0..0xf0 => 3,
        0xf0.. => 4,
    }
}

/// Returns the unit of the character that starts at this index of a text.
///
/// # Panics
///
/// If the character is U+0000 or above U+FFFF.
const fn unit_at(text: &[u8], index: usize) -> u16 {
    let first = text[index];
    assert!(first != 0, "a text has no NUL but at its end");
    match length_of_character(first) {
        1 => first as u16,
        2 => (first as u16 & 0x1f) << 6 | low_bits(text[index + 1]),
        3 => {
            (first as u16 & 0xf) << 12 | low_bits(text[index + 1]) << 6 | low_bits(text[index + 2])
        }
        _ => panic!("a character above U+FFFF has no unit"),
    }
}

/// Returns the six bits that a byte adds to a character, which it doesn't start.
const fn low_bits(byte: u8) -> u16 {
    byte as u16 & 0x3f
}

/// Returns the text that consists of units that [`units`] returned.
///
/// # Panics
///
/// If the units aren't text.
pub fn cstr16(units: &'static [u16]) -> CStr16<'static> {
    CStr16::from_u16_with_nul(units).expect("they are the units of characters")
}
