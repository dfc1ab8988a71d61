// @generated from proved source. It is not edited.

//! The text of an argument, read.

use crate::formats::uefi_path_text::form::argument::Argument;
use crate::formats::uefi_path_text::form::words::Words;
use crate::formats::uefi_path_text::parse::ipv4::read_ipv4;
use crate::formats::uefi_path_text::parse::ipv6::read_ipv6;
use crate::formats::uefi_path_text::parse::number::read_number;
use crate::formats::uefi_path_text::parse::shape::{byte_of_digits, is_hex_digit};
use crate::formats::uefi_path_text::parse::value::Value;
use crate::formats::uefi_path_text::text::arguments::{is_argument_character, is_serial_character};

impl Argument {
    /// Reads the text of an argument.
    ///
    /// # Errors
    ///
    /// The offset of the first character that no such text has there.
    #[inline]
    pub(crate) fn read(self, text: &[u8]) -> Result<Value<'_>, usize> {
        Ok(match self {
            Argument::Number(size, _) => {
                Value::Number(read_number(text, most(size.bytes()))?, size.bytes())
            }
            Argument::BigEndian => Value::BigEndian(read_number(text, u64::MAX)?),
            Argument::Word(words, size) => {
                Value::Number(read_word(words, size.bytes(), text)?, size.bytes())
            }
            Argument::Digits(shape) => {
                shape.check(text)?;
                Value::Digits(shape, text)
            }
            Argument::Bytes(most) => Value::Pairs(read_pairs(text, most)?),
            Argument::HardwareAddress => Value::Pairs(read_pairs(text, 32)?),
            Argument::Ipv4 => Value::Ipv4(read_ipv4(text)?),
            Argument::Ipv4Server => Value::Ipv4Server(read_ipv4(text)?),
            Argument::Ipv6 => Value::Ipv6(read_ipv6(text)?),
            Argument::EisaId | Argument::PnpId => Value::Number(u64::from(read_eisa(text)?), 4),
            Argument::EisaLetters => Value::Number(read_number(text, most(2))?, 2),
            Argument::DriveBay => Value::Number(read_bay(text)?, 2),
            Argument::Text(most) | Argument::Name(most) => Value::Text(read_text(text, most)?),
            Argument::Quoted => Value::Units(read_quoted(text)?),
        })
    }
}

/// Returns the greatest number of this many bytes.
#[inline]
fn most(size: usize) -> u64 {
    u64::MAX >> (64 - 8 * size)
}

/// Reads a word, or a number of this many bytes if one can be in its place.
#[inline]
fn read_word(words: Words, size: usize, text: &[u8]) -> Result<u64, usize> {
    match words.number(text) {
        Ok(number) => Ok(number),
        Err(offset) if words.are_numbers() => match read_number(text, most(size)) {
            Ok(number) => Ok(number),
            Err(other) => Err(offset.max(other)),
        },
        Err(offset) => Err(offset),
    }
}

/// Reads at most this many bytes, two hex digits each.
#[inline]
fn read_pairs(text: &[u8], most: usize) -> Result<&[u8], usize> {
    for (offset, c) in text.iter().enumerate() {
        if !is_hex_digit(*c) || offset / 2 == most {
            return Err(offset);
        }
    }
    if text.len() % 2 == 0 {
        Ok(text)
    } else {
        Err(text.len())
    }
}

/// Reads a compressed EISA identifier.
#[inline]
fn read_eisa(text: &[u8]) -> Result<u32, usize> {
    for (offset, c) in text.iter().enumerate() {
        if !fits_eisa(offset, *c) {
            return Err(offset);
        }
    }
    if text.len() != 7 {
        return Err(text.len());
    }
    let letters = eisa_letter(text[0]) * 0x400 + eisa_letter(text[1]) * 0x20 + eisa_letter(text[2]);
    let product = u32::from(byte_of_digits(text[3], text[4])) * 0x100
        + u32::from(byte_of_digits(text[5], text[6]));
    Ok(letters + product * 0x10000)
}

/// Returns the number of a letter of a compressed EISA identifier.
#[inline]
fn eisa_letter(c: u8) -> u32 {
    u32::from(c - 0x40)
}

/// Returns whether a compressed EISA identifier may have a character at an offset.
#[inline]
fn fits_eisa(offset: usize, c: u8) -> bool {
    if offset < 3 {
        (0x40..0x60).contains(&c)
    } else {
        offset < 7 && is_hex_digit(c)
    }
}

/// Reads the number of a drive bay as what is known of a SAS device.
#[inline]
fn read_bay(text: &[u8]) -> Result<u64, usize> {
    let bay = read_number(text, 256)?;
    Ok(if bay == 0 { 1 } else { 2 + (bay - 1) * 0x100 })
}

/// Reads a text of at most this many bytes.
#[inline]
fn read_text(text: &[u8], most: usize) -> Result<&[u8], usize> {
    for (offset, c) in text.iter().enumerate() {
        if !is_argument_character(*c) || offset == most {
            return Err(offset);
        }
    }
    Ok(text)
}

/// Reads a text in quotes.
#[inline]
fn read_quoted(text: &[u8]) -> Result<&[u8], usize> {
    let [b'"', rest @ ..] = text else {
        return Err(0);
    };
    for (offset, c) in rest.iter().enumerate() {
        if *c == b'"' {
            return if offset + 1 == rest.len() {
                Ok(&rest[..offset])
            } else {
                Err(2 + offset)
            };
        }
        if !is_serial_character(*c) {
            return Err(1 + offset);
        }
    }
    Err(text.len())
}
