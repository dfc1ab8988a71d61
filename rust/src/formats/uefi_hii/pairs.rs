// @generated from proved source. It is not edited.

use crate::formats::uefi_hii::finding::index_of;
use core::iter::FusedIterator;

/// The byte between two pairs.
const AMPERSAND: u8 = b'&';

/// The byte between a key and its value.
const EQUALS_SIGN: u8 = b'=';

/// The pairs of keys and values of a text, in order (UEFI 2.10, 35.2.1 "String Syntax").
///
/// The text is cut at each `&` into pieces, of which an empty last one is dropped. Each piece is
/// cut at its first `=` into a key and a value; a piece without `=` is a key with no value. Nothing
/// is decoded and nothing is refused: an empty piece is a pair with an empty key.
///
/// Keys and values are parts of the text and live as long as it does, not as the iterator. After
/// the last pair the iterator stays ended.
#[derive(Clone, Copy, Debug)]
pub struct ConfigurationStringIter<'a> {
    rest: &'a str,
}

impl<'a> ConfigurationStringIter<'a> {
    /// Returns the pairs of the text. A text of n bytes has at most n pairs.
    #[must_use]
    #[inline]
    pub fn new(text: &'a str) -> ConfigurationStringIter<'a> {
        ConfigurationStringIter { rest: text }
    }
}

impl<'a> Iterator for ConfigurationStringIter<'a> {
    type Item = (&'a str, Option<&'a str>);

    #[inline(always)]
    fn next(&mut self) -> Option<(&'a str, Option<&'a str>)> {
        let (pair, rest) = next_text_pair(self.rest)?;
        self.rest = rest;
        Some(pair)
    }
}

impl<'a> FusedIterator for ConfigurationStringIter<'a> {}

/// Returns the first pair of a text that is given as bytes, and the bytes after it: one step of
/// [`ConfigurationStringIter`], over any bytes. `None` if there are no bytes.
///
/// The pair is the bytes before the first `&`, or all bytes if there is none, cut at their first
/// `=`. The bytes after that `&` are left.
#[inline(always)]
pub(crate) fn next_pair(bytes: &[u8]) -> Option<((&[u8], Option<&[u8]>), &[u8])> {
    if bytes.is_empty() {
        return None;
    }
    let (piece, rest) = split_once(bytes, AMPERSAND);
    Some((split_once(piece, EQUALS_SIGN), rest.unwrap_or(&[])))
}

/// Returns the bytes before the first `byte`, and those after it if there is one.
#[inline(always)]
fn split_once(bytes: &[u8], byte: u8) -> (&[u8], Option<&[u8]>) {
    match index_of(bytes, byte) {
        Some(index) => (&bytes[..index], Some(&bytes[index + 1..])),
        None => (bytes, None),
    }
}

/// Returns the first pair of a text, and the text after it.
#[inline(always)]
fn next_text_pair(text: &str) -> Option<((&str, Option<&str>), &str)> {
    let ((key, value), rest) = next_pair(text.as_bytes())?;
    let value = match value {
        Some(value) => {
            let start = key.len() + 1;
            Some(&text[start..start + value.len()])
        }
        None => None,
    };
    Some((
        (&text[..key.len()], value),
        &text[text.len() - rest.len()..],
    ))
}
