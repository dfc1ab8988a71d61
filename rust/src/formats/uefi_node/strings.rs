// @generated from proved source. It is not edited.

//! Strings that end with a NUL each.

/// Returns whether no byte is a NUL.
#[inline]
pub(crate) fn is_without_nul(bytes: &[u8]) -> bool {
    bytes.iter().all(|byte| *byte != 0)
}

/// Returns the three strings that the bytes are, each with a NUL after it, or `None` if the bytes
/// aren't three strings.
#[inline]
pub(crate) fn three_strings(bytes: &[u8]) -> Option<(&[u8], &[u8], &[u8])> {
    let Some((first, after_first)) = split_string(bytes) else {
        return None;
    };
    let Some((second, after_second)) = split_string(after_first) else {
        return None;
    };
    let Some((third, rest)) = split_string(after_second) else {
        return None;
    };
    if !rest.is_empty() {
        return None;
    }
    Some((first, second, third))
}

/// Returns the bytes up to the first NUL, and those after it, or `None` if there is no NUL.
#[inline]
fn split_string(bytes: &[u8]) -> Option<(&[u8], &[u8])> {
    let Some(nul) = find_nul(bytes) else {
        return None;
    };
    let (string, with_nul) = bytes.split_at(nul);
    let (_, rest) = with_nul.split_at(1);
    Some((string, rest))
}

/// Returns the offset of the first NUL, if there is one.
#[inline]
fn find_nul(bytes: &[u8]) -> Option<usize> {
    bytes.iter().position(|byte| *byte == 0)
}
