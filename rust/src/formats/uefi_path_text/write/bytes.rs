// @generated from proved source. It is not edited.

/// Returns the number in bytes, the lowest first.
#[inline]
pub(crate) fn number(bytes: &[u8]) -> u64 {
    match bytes.split_first() {
        None => 0,
        Some((first, others)) => u64::from(*first) + 256 * number(others),
    }
}

/// Returns the first elements, so many.
#[inline]
pub(crate) fn front<T>(bytes: &[T], count: usize) -> &[T] {
    if count < bytes.len() {
        &bytes[..count]
    } else {
        bytes
    }
}

/// Returns the elements after the first, so many.
#[inline]
pub(crate) fn after<T>(bytes: &[T], count: usize) -> &[T] {
    if count < bytes.len() {
        &bytes[count..]
    } else {
        &[]
    }
}

/// Returns what follows these bytes, if a text begins with them.
#[inline]
pub(crate) fn after_front<'a>(text: &'a [u8], front: &[u8]) -> Option<&'a [u8]> {
    text.strip_prefix(front)
}

/// Returns how many bytes are before the first NUL.
#[inline]
pub(crate) fn text_size(bytes: &[u8]) -> usize {
    match first_nul(bytes) {
        Some(index) => index,
        None => bytes.len(),
    }
}

/// Returns the index of the first NUL.
#[inline]
fn first_nul(bytes: &[u8]) -> Option<usize> {
    bytes.iter().position(|b| *b == 0)
}

/// Returns the byte at an index, or 0 if there is none.
#[inline]
pub(crate) fn byte_at(bytes: &[u8], index: usize) -> u8 {
    if index < bytes.len() { bytes[index] } else { 0 }
}
