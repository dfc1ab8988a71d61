// @generated from proved source. It is not edited.

use crate::rows::{hex_digits, quoted};
use crate::test_support::{Refusing, bytes};
use crate::uefi_path::DevicePath;
use crate::uefi_path_text::{
    AllowShortcuts, DisplayOnly, FromTextError, from_text_in, instance_to_text, node_to_text,
    to_text, write_from_text,
};

/// Returns the text of the path that the bytes are.
fn shown(input: &[u8], display_only: bool, shortcuts: bool) -> Option<String> {
    let Ok(path) = DevicePath::try_from(input) else {
        return fallible_format!("no path").ok();
    };
    let text = to_text(path, DisplayOnly(display_only), AllowShortcuts(shortcuts));
    fallible_format!("{text}").ok()
}

/// Returns the text of the path that the bytes are, in quotes.
pub(crate) fn text(
    input: &str,
    display_only: bool,
    shortcuts: bool,
) -> Option<String> {
    let input = bytes(input).ok()?;
    let text = shown(input.as_slice(), display_only, shortcuts)?;
    quoted(text.as_str()).ok()
}

/// Returns the exact text of the path that the bytes are, if it is read as the path.
pub(crate) fn text_and_back(input: &str) -> Option<String> {
    let input = bytes(input).ok()?;
    let text = shown(input.as_slice(), false, false)?;
    match from_text_in(text.as_str()) {
        Ok(path) if path.as_path().as_bytes() == input.as_slice() => {
            quoted(text.as_str()).ok()
        }
        Ok(_) => fallible_format!("{text}, which is read as another path").ok(),
        Err(FromTextError::Memory) => None,
        Err(error) => fallible_format!("{text}, which is not read: {error:?}").ok(),
    }
}

/// Returns the text of the path that the bytes are, if it is the same for display, and is read as
/// the path.
pub(crate) fn text_in_each_style(
    input: &str,
) -> Option<String> {
    let exact = text_and_back(input)?;
    let for_display = text(input, true, false)?;
    if exact.as_str() == for_display.as_str() {
        return Some(exact);
    }
    fallible_format!("{exact}, and for display {for_display}").ok()
}

/// Returns the texts of the instances of a path, of its nodes and of its end node, each with a
/// semicolon after it but the last.
pub(crate) fn texts_of_parts(input: &str) -> Option<String> {
    let input = bytes(input).ok()?;
    let path = DevicePath::try_from(input.as_slice()).ok()?;
    let (display_only, shortcuts) = (DisplayOnly(false), AllowShortcuts(false));
    let mut texts = String::new();
    for instance in path.instance_iter() {
        let text = instance_to_text(instance, display_only, shortcuts);
        fallible_write!(texts, "{text};").ok()?;
    }
    for node in path.node_iter() {
        let text = node_to_text(node, display_only, shortcuts);
        fallible_write!(texts, "{text};").ok()?;
    }
    let text = node_to_text(path.end_node(), display_only, shortcuts);
    fallible_write!(texts, "{text}").ok()?;
    quoted(texts.as_str()).ok()
}

/// Returns the error of reading a text into a buffer of nine bytes, if each of them stays.
pub(crate) fn into_nine_bytes(input: &str) -> Option<String> {
    let mut buffer = [0xee; 9];
    let written = write_from_text(&mut buffer, input);
    if buffer != [0xee; 9] {
        return fallible_format!("the buffer is written to").ok();
    }
    fallible_format!("{written:?}").ok()
}

/// Returns the bytes of the path whose text this is, or why it is none, where both calls return
/// the same.
pub(crate) fn parsed(input: &str) -> Option<String> {
    let mut buffer = [0xee; 128];
    let written = write_from_text(&mut buffer, input);
    match from_text_in(input) {
        Err(FromTextError::Memory) => None,
        Err(error) if written == Err(error) => fallible_format!("{error:?}").ok(),
        Ok(path) if written == Ok(path.as_path().as_bytes().len()) => {
            let path = path.as_path().as_bytes();
            if !buffer.starts_with(path) {
                return fallible_format!("another path in a buffer").ok();
            }
            hex_digits(path).ok()
        }
        _ => fallible_format!("another result in a buffer: {written:?}").ok(),
    }
}
