// @generated from proved source. It is not edited.

use core::fmt::Write as _;

use crate::formats::uefi_path_text::form::argument::{Argument, Base};
use crate::formats::uefi_path_text::form::shape::{Piece, ipv6_pieces};
use crate::formats::uefi_path_text::form::words::Words;
use crate::formats::uefi_path_text::text::arguments::{HexByte, HexBytes, is_argument, is_serial_character, write_argument};
use crate::formats::uefi_path_text::write::bytes::{byte_at, number, text_size};
use core::fmt;

impl Argument {
    /// Returns how many of the bytes are the argument's value.
    #[inline]
    pub(crate) fn value_size(self, rest: &[u8]) -> usize {
        match self {
            Argument::Number(size, _) | Argument::Word(_, size) => size.bytes(),
            Argument::BigEndian => 8,
            Argument::Digits(shape) => shape.size(),
            Argument::Bytes(_) | Argument::Quoted => rest.len(),
            Argument::Ipv4 | Argument::EisaId | Argument::PnpId => 4,
            Argument::Ipv4Server | Argument::Ipv6 => 16,
            Argument::EisaLetters | Argument::DriveBay => 2,
            Argument::HardwareAddress => { if byte_at(rest, 32) <= 1 { 6 } else { 32 } }
            Argument::Text(_) | Argument::Name(_) => text_size(rest),
        }
    }

    /// Returns whether the value has a text.
    #[inline]
    pub(crate) fn can_show(self, value: &[u8]) -> bool {
        match self {
            Argument::Number(size, _) => value.len() == size.bytes(),
            Argument::BigEndian => value.len() == 8,
            Argument::Word(words, size) => {
                value.len() == size.bytes()
                    && (words.writes_numbers() || words.word_for(number(value)).is_some())
            }
            Argument::Digits(shape) => value.len() == shape.size(),
            Argument::Bytes(most) => value.len() <= most,
            Argument::Ipv4 => value.len() == 4,
            Argument::Ipv6 => value.len() == 16,
            Argument::EisaId => value.len() == 4 && number(value) % 0x10000 < 0x8000,
            Argument::EisaLetters => value.len() == 2 && number(value) < 0x8000,
            Argument::DriveBay => value.len() == 2 && is_bay(number(value)),
            Argument::Text(most) => is_argument(value) && value.len() <= most,
            Argument::HardwareAddress => value.len() <= 32,
            Argument::Ipv4Server => value.len() == 16 && are_zeros(&value[4..]),
            Argument::PnpId => value.len() == 4 && number(value) % 0x10000 == 0x41d0,
            Argument::Name(most) => {
                is_argument(value) && value.len() <= most && !value.is_empty()
            }
            Argument::Quoted => are_characters(value),
        }
    }

    /// Returns whether the value is left out, if it is the last.
    #[inline]
    pub(crate) fn is_left_out(self, value: &[u8]) -> bool {
        matches!(self, Argument::Bytes(_)) && value.is_empty()
    }

    /// Writes the text of a value.
    #[inline]
    pub(crate) fn write_value(
        self,
        f: &mut fmt::Formatter<'_>,
        value: &[u8],
    ) -> fmt::Result {
        match self {
            Argument::Number(_, base) => write_number(f, base, value),
            Argument::BigEndian => write!(f, "0x{}", HexBytes(value)),
            Argument::Word(words, _) => write_word(f, words, value),
            Argument::Digits(shape) => write_pieces(f, shape.pieces(), value),
            Argument::Bytes(_) | Argument::HardwareAddress => { write!(f, "{}", HexBytes(value)) }
            Argument::Ipv4 | Argument::Ipv4Server => write_ipv4(f, value),
            Argument::Ipv6 => write_pieces(f, ipv6_pieces(), value),
            Argument::EisaId | Argument::PnpId => write_eisa(f, number(value) as u32),
            Argument::EisaLetters => write_number(f, Base::Hex, value),
            Argument::DriveBay => write_bay(f, number(value) as u16),
            Argument::Text(_) | Argument::Name(_) => write_argument(f, value),
            Argument::Quoted => {
                f.write_str("\"")?;
                write_characters(f, value)?;
                f.write_str("\"")
            }
        }
    }
}

/// Returns whether a number is what is known of a drive bay.
#[inline]
fn is_bay(info: u64) -> bool {
    info == 1 || info % 0x100 == 2
}

impl Words {
    /// Returns the first word for a number.
    #[inline]
    pub(crate) fn word_for(self, number: u64) -> Option<&'static str> {
        find_word(self.list(), number)
    }

    /// Returns the first number of a word that is a bit of this one, or 0.
    #[inline]
    pub(crate) fn bit_word(self, number: u64) -> u64 {
        find_bit(self.list(), number)
    }

    /// Returns whether a number is written in the place of a word.
    #[inline]
    fn writes_numbers(self) -> bool {
        matches!(self, Words::Protocol | Words::Default | Words::BootDevice)
    }

    /// Returns how it is.
    #[inline]
    fn number_base(self) -> Base {
        match self {
            Words::Default => Base::Decimal,
            _ => Base::Hex,
        }
    }
}

/// Returns the first of these words for a number.
#[inline]
fn find_word(words: &[(&'static str, u64)], number: u64) -> Option<&'static str> {
    let ((word, own), others) = words.split_first()?;
    if *own == number {
        Some(word)
    } else {
        find_word(others, number)
    }
}

/// Returns the first number of these words that is a bit of this one, or 0.
#[inline]
fn find_bit(words: &[(&'static str, u64)], number: u64) -> u64 {
    let Some(((_, own), others)) = words.split_first() else {
        return 0;
    };
    if *own != 0 && number / *own % 2 == 1 {
        *own
    } else {
        find_bit(others, number)
    }
}

/// Writes a number.
#[inline]
fn write_number(f: &mut fmt::Formatter<'_>, base: Base, value: &[u8]) -> fmt::Result {
    match base {
        Base::Hex => {
            let number = number(value);
            write!(f, "0x{number:X}")
        }
        Base::LongHex => {
            f.write_str("0x")?;
            write_reversed(f, value)
        }
        Base::Decimal => write!(f, "{}", number(value)),
    }
}

/// Writes two hex digits for each byte, the last byte first.
#[inline]
fn write_reversed(f: &mut fmt::Formatter<'_>, value: &[u8]) -> fmt::Result {
    if let Some((first, others)) = value.split_first() {
        write_reversed(f, others)?;
        write!(f, "{}", HexByte(*first))?;
    }
    Ok(())
}

/// Writes the word of a number, or the number.
#[inline]
pub(crate) fn write_word(
    f: &mut fmt::Formatter<'_>,
    words: Words,
    value: &[u8],
) -> fmt::Result {
    match words.word_for(number(value)) {
        Some(word) => f.write_str(word),
        None => write_number(f, words.number_base(), value),
    }
}

/// Writes the digits of bytes in the order of these pieces.
#[inline]
fn write_pieces(
    f: &mut fmt::Formatter<'_>,
    pieces: &[Piece],
    value: &[u8],
) -> fmt::Result {
    if let Some((piece, others)) = pieces.split_first() {
        write_piece(f, piece, value)?;
        write_pieces(f, others, value)?;
    }
    Ok(())
}

/// Writes a piece.
#[inline]
fn write_piece(f: &mut fmt::Formatter<'_>, piece: &Piece, value: &[u8]) -> fmt::Result {
    match piece {
        Piece::Digits(index) => write!(f, "{}", HexByte(byte_at(value, *index))),
        Piece::Mark(c) => f.write_char(char::from(*c)),
    }
}

/// Writes an IPv4 address.
#[inline]
pub(crate) fn write_ipv4(f: &mut fmt::Formatter<'_>, value: &[u8]) -> fmt::Result {
    write!(f, "{}.{}.{}.{}", value[0], value[1], value[2], value[3])
}

/// Writes a compressed EISA identifier.
#[inline]
fn write_eisa(f: &mut fmt::Formatter<'_>, id: u32) -> fmt::Result {
    f.write_char(eisa_letter(id / 0x400))?;
    f.write_char(eisa_letter(id / 0x20))?;
    f.write_char(eisa_letter(id))?;
    let product = ((id / 0x10000) as u16).to_be_bytes();
    write!(f, "{}", HexBytes(&product))
}

/// Returns the letter of the lowest five bits.
#[inline]
fn eisa_letter(bits: u32) -> char {
    char::from(b'@' + (bits % 0x20) as u8)
}

/// Writes the number of a drive bay.
#[inline]
fn write_bay(f: &mut fmt::Formatter<'_>, info: u16) -> fmt::Result {
    if info == 1 {
        return f.write_str("0");
    }
    let bay = info / 0x100 + 1;
    write!(f, "0x{bay:X}")
}

/// Returns whether all 12 bytes are zero.
#[inline]
fn are_zeros(bytes: &[u8]) -> bool {
    bytes == [0; 12].as_slice()
}

/// Returns whether bytes are units of two bytes that a text in quotes can have.
#[inline]
fn are_characters(units: &[u8]) -> bool {
    match units {
        [] => true,
        [_] => false,
        [low, high, others @ ..] => {
            *high == 0 && is_serial_character(*low) && are_characters(others)
        }
    }
}

/// Writes the characters of units of two bytes.
#[inline]
fn write_characters(f: &mut fmt::Formatter<'_>, units: &[u8]) -> fmt::Result {
    if let [low, _, others @ ..] = units {
        f.write_char(char::from(*low))?;
        write_characters(f, others)?;
    }
    Ok(())
}
