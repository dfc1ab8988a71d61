// @generated from proved source. It is not edited.

/// Returns the bytes from the offset on, or `None` if it is past the end.
#[inline]
pub(crate) fn bytes_from(bytes: &[u8], offset: usize) -> Option<&[u8]> {
    let (_, rest) = bytes.split_at_checked(offset)?;
    Some(rest)
}

/// Returns the bytes of this many units of two bytes from the offset on, which are known to be
/// there.
#[inline]
pub(crate) fn units_at(bytes: &[u8], offset: usize, units: usize) -> &[u8] {
    let (_, rest) = bytes.split_at(offset);
    let (part, _) = rest.split_at(2 * units);
    part
}
