// @generated from proved source. It is not edited.

use crate::support::fallible::*;

use crate::rows::hex_digits;
use crate::test_support::{Refusing, bytes};
use crate::uefi_base::{CStr16, CString16, FromStrError, UnalignedCStr16Error, UnalignedSlice};

/// Returns the units over bytes.
fn units_of(slice: UnalignedSlice<'_>) -> Option<Vec<u16>> {
    slice.iter().fallible_collect::<Vec<u16>>().ok()
}

/// Returns the count of characters of a text, whether it has none, its units, and its characters.
/// They are the same displayed.
fn shown(text: CStr16<'_>) -> Option<String> {
    let characters = text.to_string().text().ok()?;
    let displayed = fallible_format!("{text}").ok()?;
    if displayed.as_str() != characters.as_str() {
        return fallible_format!("another text is displayed: {displayed}").ok();
    }
    let (count, is_empty) = (text.num_chars(), text.is_empty());
    let units = text.as_u16_with_nul();
    let characters = hex_digits(characters.as_str().as_bytes()).ok()?;
    fallible_format!("({count}, {is_empty}, {units:?}, {characters})").ok()
}

/// Returns what a text of units has, or why they are none.
fn view(units: &[u16]) -> Option<String> {
    match CStr16::from_u16_with_nul(units) {
        Ok(text) => shown(text),
        Err(error) => fallible_format!("{error:?}").ok(),
    }
}

/// Returns the same of a copy of units over bytes.
fn copied(slice: UnalignedSlice<'_>) -> Option<String> {
    match slice.to_cstring16() {
        Ok(text) => shown(text.as_cstr16()),
        Err(UnalignedCStr16Error::Memory) => None,
        Err(error) => fallible_format!("{error:?}").ok(),
    }
}

/// Returns what the text of units has, or why they are none: the same of a view, and of a copy of
/// the bytes.
pub(crate) fn text(input: &str) -> Option<String> {
    let input = bytes(input).ok()?;
    let slice = UnalignedSlice::try_new(input.as_slice())?;
    let copied = copied(slice)?;
    let view = view(units_of(slice)?.as_slice())?;
    if view != copied {
        return fallible_format!("{view}, and of a copy {copied}").ok();
    }
    Some(view)
}

/// Returns the units of a text that is made of characters in UTF-8, or why it isn't. A copy of the
/// text is equal, and it has the characters, also displayed.
pub(crate) fn made(input: &str) -> Option<String> {
    let input = bytes(input).ok()?;
    let characters = core::str::from_utf8(input.as_slice()).ok()?;
    let text = match CString16::from_str(characters) {
        Ok(text) => text,
        Err(FromStrError::Memory) => return None,
        Err(error) => return fallible_format!("Err({error:?})").ok(),
    };
    let copy = text.fallible_clone().ok()?;
    let displayed = fallible_format!("{text}").ok()?;
    if copy != text || displayed.as_str() != characters {
        return fallible_format!("another text: {displayed}").ok();
    }
    let units = copy.as_u16_with_nul();
    fallible_format!("Ok({units:?})").ok()
}

/// Returns whether a text has the characters that another one has up to its first NUL, as owned text
/// and as a view. Both inputs are in UTF-8.
pub(crate) fn equal_until_nul(input: &str) -> Option<String> {
    let (text, other) = input.split_once(" ; ")?;
    let (text, other) = (bytes(text).ok()?, bytes(other).ok()?);
    let text = CString16::from_str(core::str::from_utf8(text.as_slice()).ok()?).ok()?;
    let other = core::str::from_utf8(other.as_slice()).ok()?;
    let are_equal = [
        text.eq_str_until_nul(other),
        text.as_cstr16().eq_str_until_nul(other),
    ];
    fallible_format!("{are_equal:?}").ok()
}

/// Returns whether the texts of units over two inputs are equal: as owned texts, as views, and as
/// units over bytes.
pub(crate) fn equal_texts(input: &str) -> Option<String> {
    let (one, other) = input.split_once(" ; ")?;
    let (one, other) = (bytes(one).ok()?, bytes(other).ok()?);
    let one = UnalignedSlice::try_new(one.as_slice())?;
    let other = UnalignedSlice::try_new(other.as_slice())?;
    let texts = (
        one.to_cstring16().ok()?,
        other.to_cstring16().ok()?,
    );
    let are_equal = [
        texts.0 == texts.1,
        texts.0.as_cstr16() == texts.1.as_cstr16(),
        one == other,
    ];
    fallible_format!("{are_equal:?}").ok()
}
