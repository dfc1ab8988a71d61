// @generated from proved source. It is not edited.

/// Returns the part of a text before the first mark, and what follows the mark.
#[inline]
pub(crate) fn cut(text: &[u8], mark: u8) -> (&[u8], Option<&[u8]>) {
    match text.iter().position(|c| *c == mark) {
        Some(end) => (&text[..end], Some(&text[end + 1..])),
        None => (text, None),
    }
}

/// Returns the text of the first argument, and those of the others. If there is none, its text is
/// empty.
#[inline]
pub(crate) fn next_text(texts: Option<&[u8]>) -> (&[u8], Option<&[u8]>) {
    match texts {
        Some(texts) => cut(texts, b','),
        None => (&[], None),
    }
}

/// Returns the offset of the texts, which end at the offset `end`.
#[inline]
pub(crate) fn start_of(texts: Option<&[u8]>, end: usize) -> usize {
    match texts {
        Some(texts) => end - texts.len(),
        None => end,
    }
}
