// @generated from proved source. It is not edited.

use core::mem::MaybeUninit;
use crate::bytes::Bytes;

use crate::formats::uefi_c::status::{self, UefiStatus};
use core::str::FromStr;
use crate::formats::uefi_base::Guid;

/// Writes the text of a GUID: five groups of lowercase hex digits, separated by dashes, of which the
/// first three are the little-endian numbers of the GUID.
#[unsafe(no_mangle)]
pub extern "C" fn uefi_guid_text(text: &mut MaybeUninit<[u8; 36]>, guid: &[u8; 16]) {
    let [a, b, c, d, e, f, g, h, i, j, k, l, m, n, o, p] = *guid;
    text.write([
        high(d),
        low(d),
        high(c),
        low(c),
        high(b),
        low(b),
        high(a),
        low(a),
        b'-',
        high(f),
        low(f),
        high(e),
        low(e),
        b'-',
        high(h),
        low(h),
        high(g),
        low(g),
        b'-',
        high(i),
        low(i),
        high(j),
        low(j),
        b'-',
        high(k),
        low(k),
        high(l),
        low(l),
        high(m),
        low(m),
        high(n),
        low(n),
        high(o),
        low(o),
        high(p),
        low(p),
    ]);
}

/// Reads a GUID from its text, which has hex digits of either case. Without one the GUID stays as it
/// was.
#[unsafe(no_mangle)]
pub extern "C" fn uefi_guid_from_text(guid: &mut MaybeUninit<[u8; 16]>, text: Bytes<'_>) -> UefiStatus {
    let text = text.as_slice();
    let Ok(text) = core::str::from_utf8(text) else {
        return status::NOT_TEXT;
    };
    let Ok(found) = Guid::from_str(text) else {
        return status::NOT_TEXT;
    };
    guid.write(found.to_bytes());
    status::OK
}

/// Returns the hex digit of a byte's higher half.
#[inline]
fn high(byte: u8) -> u8 {
    digit(byte / 16)
}

/// Returns the hex digit of a byte's lower half.
#[inline]
fn low(byte: u8) -> u8 {
    digit(byte % 16)
}

/// Returns the lowercase hex digit of a number below 16.
#[inline]
fn digit(number: u8) -> u8 {
    if number < 10 {
        b'0' + number
    } else {
        b'a' + (number - 10)
    }
}
