// @generated from proved source. It is not edited.

//! Encoding and decoding hex strings, after the crate `hex` 0.4.3.
//!
//! For most cases, you can simply use the [`decode`], [`encode`] and [`encode_upper`] functions.
//! If you need a bit more control, use the traits [`ToHex`] and [`FromHex`] instead.
//!

use crate::support::fallible::*;

use crate::support::alloc::AllocError;

mod error;

pub use crate::hex::error::FromHexError;

const HEX_CHARS_LOWER: &[u8; 16] = b"0123456789abcdef";

const HEX_CHARS_UPPER: &[u8; 16] = b"0123456789ABCDEF";

fn val(c: u8, idx: usize) -> Result<u8, FromHexError> {
    match c {
        b'A'..=b'F' => Ok(c - b'A' + 10),
        b'a'..=b'f' => Ok(c - b'a' + 10),
        b'0'..=b'9' => Ok(c - b'0'),
        _ => Err(FromHexError::InvalidHexCharacter {
            c: char::from(c),
            index: idx,
        }),
    }
}

// The byte of two digits, the first of them at index `idx`.
fn pair(high: u8, low: u8, idx: usize) -> Result<u8, FromHexError> {
    Ok(val(high, idx)? * 16 + val(low, idx + 1)?)
}

/// Encoding values as hex string.
///
/// This trait is implemented for all `T` which implement `AsSlice<u8>`. This includes `String`,
/// `&str`, `Vec<u8>` and `&[u8]`.
///
///
/// Instead of using this trait, you might want to use [`encode`].
pub trait ToHex {
    /// Encodes the hex string representing `self` into the result. Lower case letters are used
    /// (e.g. `f9b4ca`).
    fn encode_hex(&self) -> Result<String, AllocError>;

    /// Encodes the hex string representing `self` into the result. Upper case letters are used
    /// (e.g. `F9B4CA`).
    fn encode_hex_upper(&self) -> Result<String, AllocError>;
}

impl<T: AsRef<[u8]>> ToHex for T {
    fn encode_hex(&self) -> Result<String, AllocError> {
        encode_with_table(self.as_ref(), HEX_CHARS_LOWER)
    }

    fn encode_hex_upper(&self) -> Result<String, AllocError> {
        encode_with_table(self.as_ref(), HEX_CHARS_UPPER)
    }
}

/// Types that can be decoded from a hex string.
///
/// This trait is implemented for `u8` arrays of any length.
pub trait FromHex: Sized {
    type Error;

    /// Creates an instance of type `Self` from the given hex string, or fails with a custom error
    /// type.
    ///
    /// Both upper and lower case characters are valid and can even be mixed (e.g. `f9b4ca`,
    /// `F9B4CA` and `f9B4Ca` are all valid strings).
    fn from_hex<T: AsRef<[u8]>>(hex: T) -> Result<Self, Self::Error>;
}

impl<const N: usize> FromHex for [u8; N] {
    type Error = FromHexError;

    fn from_hex<T: AsRef<[u8]>>(hex: T) -> Result<[u8; N], FromHexError> {
        let data = hex.as_ref();
        if data.len() % 2 != 0 {
            return Err(FromHexError::OddLength);
        }
        if data.len() / 2 != N {
            return Err(FromHexError::InvalidStringLength);
        }
        let mut out = [0u8; N];
        for i in 0..N {
            out[i] = pair(data[2 * i], data[2 * i + 1], 2 * i)?;
        }
        Ok(out)
    }
}

/// Encodes `data` as hex string using lowercase characters.
///
/// Each byte in `data` is always encoded using two hex digits, so the resulting string contains
/// exactly twice as many bytes as the input data. It fails only where memory does.
///
pub fn encode<T: AsRef<[u8]>>(
    data: T,
) -> Result<String, AllocError> {
    encode_with_table(data.as_ref(), HEX_CHARS_LOWER)
}

/// Encodes `data` as hex string using uppercase characters.
///
/// Apart from the characters' casing, this works exactly like [`encode`].
pub fn encode_upper<T: AsRef<[u8]>>(
    data: T,
) -> Result<String, AllocError> {
    encode_with_table(data.as_ref(), HEX_CHARS_UPPER)
}

/// Decodes a hex string into raw bytes.
///
/// Both upper and lower case characters are valid in the input string and can even be mixed (e.g.
/// `f9b4ca`, `F9B4CA` and `f9B4Ca` are all valid strings).
///
pub fn decode<T: AsRef<[u8]>>(
    data: T,
) -> Result<Vec<u8>, FromHexError> {
    let data = data.as_ref();
    if data.len() % 2 != 0 {
        return Err(FromHexError::OddLength);
    }
    let mut out = Vec::fallible_from_elem(0u8, data.len() / 2)?;
    decode_into(data, out.as_mut_slice())?;
    Ok(out)
}

/// Decodes a hex string into a mutable bytes slice.
///
/// Both upper and lower case characters are valid in the input string and can even be mixed. The
/// string has to be twice as long as `out`, and otherwise `out` is left alone. On an invalid
/// character, what `out` then holds is not specified.
///
pub fn decode_to_slice<T: AsRef<[u8]>>(data: T, out: &mut [u8]) -> Result<(), FromHexError> {
    decode_into(data.as_ref(), out)
}

/// Encodes some bytes into a mutable slice of bytes.
///
/// The output buffer has to hold exactly `input.len() * 2` bytes, otherwise this function returns
/// an error and leaves it alone.
///
pub fn encode_to_slice<T: AsRef<[u8]>>(
    input: T,
    output: &mut [u8],
) -> Result<(), FromHexError> {
    let input = input.as_ref();
    if output.len() % 2 != 0 || output.len() / 2 != input.len() {
        return Err(FromHexError::InvalidStringLength);
    }
    encode_into(input, output, HEX_CHARS_LOWER);
    Ok(())
}

fn decode_into(data: &[u8], out: &mut [u8]) -> Result<(), FromHexError> {
    if data.len() % 2 != 0 {
        return Err(FromHexError::OddLength);
    }
    if data.len() / 2 != out.len() {
        return Err(FromHexError::InvalidStringLength);
    }
    for i in 0..out.len() {
        out[i] = pair(data[2 * i], data[2 * i + 1], 2 * i)?;
    }
    Ok(())
}

fn encode_into(input: &[u8], output: &mut [u8], table: &[u8; 16]) {
    for i in 0..input.len() {
        let byte = input[i];
        output[2 * i] = table[(byte >> 4) as usize];
        output[2 * i + 1] = table[(byte & 0x0f) as usize];
    }
}

fn encode_with_table(
    input: &[u8],
    table: &[u8; 16],
) -> Result<String, AllocError> {
    let Some(len) = input.len().checked_mul(2) else {
        return Err(AllocError);
    };
    let mut buf = Vec::fallible_from_elem(0u8, len)?;
    encode_into(input, buf.as_mut_slice(), table);
    Ok(String::from_utf8(buf).expect("UTF-8"))
}
