// @generated from proved source. It is not edited.

/// Returns the bytes before the first one of this value, and those after it; `None` if there is
/// none.
pub(crate) fn split_once(bytes: &[u8], value: u8) -> Option<(&[u8], &[u8])> {
    let at = bytes.iter().position(|byte| *byte == value)?;
    Some((&bytes[..at], &bytes[at + 1..]))
}
