// @generated from proved source. It is not edited.

/// Returns whether all bytes are 0, or all are 0xFF.
#[inline]
pub(crate) fn is_padding(bytes: &[u8]) -> bool {
    are_all(bytes, 0) || are_all(bytes, 0xff)
}

/// Returns whether each byte is this one.
#[inline]
fn are_all(bytes: &[u8], byte: u8) -> bool {
    bytes.iter().all(|it| *it == byte)
}

/// Returns the first offset from which on all bytes are 0, or all are 0xFF; the length if none are.
#[inline]
pub(crate) fn padding_from(bytes: &[u8]) -> usize {
    run_from(bytes, 0).min(run_from(bytes, 0xff))
}

/// Returns the first offset from which on each byte is this one.
#[inline]
fn run_from(bytes: &[u8], byte: u8) -> usize {
    let mut start = bytes.len();
    while start > 0 && bytes[start - 1] == byte {
        start -= 1;
    }
    start
}
