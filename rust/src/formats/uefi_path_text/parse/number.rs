// @generated from proved source. It is not edited.

/// Reads one digit or more as a number of at most `most`.
///
/// # Errors
///
/// The offset of the first character that no such number has there.
#[inline]
pub(crate) fn read_digits(text: &[u8], radix: u32, most: u64) -> Result<u64, usize> {
    let mut number: u64 = 0;
    for (offset, c) in text.iter().enumerate() {
        let Some(next) = next_number(number, *c, radix, most) else {
            return Err(offset);
        };
        number = next;
    }
    if text.is_empty() {
        return Err(0);
    }
    Ok(number)
}

/// Reads a number of at most `most`: hex digits after `0x`, or decimal ones.
///
/// # Errors
///
/// The offset of the first character that no such number has there.
#[inline]
pub(crate) fn read_number(text: &[u8], most: u64) -> Result<u64, usize> {
    match text {
        [b'0', b'x' | b'X', digits @ ..] => match read_digits(digits, 16, most) {
            Ok(number) => Ok(number),
            Err(offset) => Err(2 + offset),
        },
        _ => read_digits(text, 10, most),
    }
}

/// Returns the number with one more digit, if it is at most `most`.
#[inline]
fn next_number(number: u64, c: u8, radix: u32, most: u64) -> Option<u64> {
    let digit = char::from(c).to_digit(radix)?;
    let next = number
        .checked_mul(u64::from(radix))?
        .checked_add(u64::from(digit))?;
    if next <= most { Some(next) } else { None }
}
