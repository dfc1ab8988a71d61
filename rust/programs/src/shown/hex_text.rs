// @generated from proved source. It is not edited.

//! Bytes and numbers, displayed in lower case hex.

use core::fmt;

/// The lower case hex digits.
const DIGITS: &[u8; 16] = b"0123456789abcdef";

/// How many bytes are written at a time.
const BLOCK: usize = 64;

/// How many digits a block has.
const BLOCK_DIGITS: usize = 128;

/// The most bytes that the text of a number has: `0x` and sixteen digits.
const NUMBER_LENGTH: usize = 18;

/// A byte, displayed as two lower case hex digits.
#[derive(Clone, Copy, Debug)]
pub struct HexByte(pub u8);

impl fmt::Display for HexByte {
    fn fmt(&self, f: &mut fmt::Formatter<'_>) -> fmt::Result {
        write_byte(f, self.0)
    }
}

/// Writes the two hex digits of a byte.
fn write_byte(f: &mut fmt::Formatter<'_>, byte: u8) -> fmt::Result {
    let digits = [hex_digit(byte / 16), hex_digit(byte % 16)];
    f.write_str(ascii(&digits))
}

/// Bytes, displayed as two lower case hex digits each.
#[derive(Clone, Copy, Debug)]
pub struct Hex<'a>(pub &'a [u8]);

impl fmt::Display for Hex<'_> {
    fn fmt(&self, f: &mut fmt::Formatter<'_>) -> fmt::Result {
        write_hex(f, self.0)
    }
}

/// Writes two lower case hex digits for each byte, a block at a time.
///
/// # Errors
///
/// [`fmt::Error`] if a write to the formatter fails.
pub(crate) fn write_hex(f: &mut fmt::Formatter<'_>, bytes: &[u8]) -> fmt::Result {
    let mut rest = bytes;
    while rest.len() > BLOCK {
        let (block, after) = rest.split_at(BLOCK);
        write_block(f, block)?;
        rest = after;
    }
    write_block(f, rest)
}

/// Writes the digits of a block at once.
fn write_block(f: &mut fmt::Formatter<'_>, block: &[u8]) -> fmt::Result {
    let mut room = [0; BLOCK_DIGITS];
    let digits = &mut room[..2 * block.len()];
    match crate::hex::encode_to_slice(block, digits) {
        Ok(()) => f.write_str(ascii(digits)),
        Err(_) => unreachable!(),
    }
}

/// Returns a space if the bytes are at least one, and else nothing.
pub fn gap_before(bytes: &[u8]) -> &'static str {
    match bytes {
        [] => "",
        [_, ..] => " ",
    }
}

/// A number, displayed as `0x` and lower case hex digits without leading zeros.
#[derive(Clone, Copy, Debug)]
pub struct HexNumber(pub u64);

impl fmt::Display for HexNumber {
    fn fmt(&self, f: &mut fmt::Formatter<'_>) -> fmt::Result {
        write_number(f, self.0)
    }
}

/// Writes `0x` and the hex digits of a number, without leading zeros.
fn write_number(f: &mut fmt::Formatter<'_>, number: u64) -> fmt::Result {
    let mut text = [0; NUMBER_LENGTH];
    let (mut start, mut rest) = (NUMBER_LENGTH, number);
    while rest >= 16 {
        start -= 1;
        text[start] = hex_digit((rest % 16) as u8);
        rest /= 16;
    }
    text[start - 1] = hex_digit(rest as u8);
    text[start - 2] = b'x';
    text[start - 3] = b'0';
    f.write_str(ascii(&text[start - 3..]))
}

/// Returns the lower case hex digit of a value below sixteen.
fn hex_digit(value: u8) -> u8 {
    DIGITS[usize::from(value)]
}

/// Returns ASCII bytes as text.
fn ascii(bytes: &[u8]) -> &str {
    // ASCII is UTF-8.
    core::str::from_utf8(bytes).expect("UTF-8")
}
