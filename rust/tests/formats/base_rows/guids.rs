// @generated from proved source. It is not edited.

use crate::rows::hex_digits;
use crate::test_support::bytes;
use crate::uefi_base::Guid;

/// Returns the bytes of the GUID that has a text, and the text that it is displayed as, or the error.
pub(crate) fn guid(input: &str) -> Option<String> {
    match input.parse::<Guid>() {
        Ok(guid) => {
            let digits = hex_digits(&guid.to_bytes()).ok()?;
            fallible_format!("Ok({digits}, \"{guid}\")").ok()
        }
        Err(error) => fallible_format!("Err({error:?}): {error}").ok(),
    }
}

/// Returns what the GUID of sixteen bytes is displayed as.
pub(crate) fn guid_text(input: &str) -> Option<String> {
    let mut guid = [0; 16];
    let input = bytes(input).ok()?;
    if input.len() != guid.len() {
        return None;
    }
    guid.copy_from_slice(input.as_slice());
    let guid = Guid::from_bytes(guid);
    fallible_format!("\"{guid}\"").ok()
}

/// Returns the order of the GUIDs of two texts, and whether they are equal.
pub(crate) fn guid_order(input: &str) -> Option<String> {
    let (one, other) = input.split_once(" ; ")?;
    let (one, other) = (one.parse::<Guid>().ok()?, other.parse::<Guid>().ok()?);
    let (order, are_equal) = (one.cmp(&other), one == other);
    fallible_format!("({order:?}, {are_equal})").ok()
}
