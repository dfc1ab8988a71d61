// @generated from proved source. It is not edited.

use crate::formats::tpm_quote::big_endian::split_u32;
use crate::formats::tpm_quote::pcr_selection::PcrSelection;
use crate::formats::tpm_quote::quote_error::QuoteError;
use core::iter::{ExactSizeIterator, FusedIterator};

/// An iterator over the selections of a quote, in the quote's order.
///
/// Each selection lives as long as the source bytes. After the last selection the iterator returns
/// `None` forever. Its [`len`](ExactSizeIterator::len) and [`size_hint`](Iterator::size_hint) are
/// exact.
#[derive(Clone, Copy)]
pub struct PcrSelectionIter<'a> {
    rest: &'a [u8],
    count: u32,
}

impl core::fmt::Debug for PcrSelectionIter<'_> {
    fn fmt(&self, f: &mut core::fmt::Formatter<'_>) -> core::fmt::Result {
        f.debug_struct("PcrSelectionIter")
            .field("rest", &crate::support::debug::Bytes(self.rest))
            .field("count", &self.count)
            .finish()
    }
}

impl<'a> PcrSelectionIter<'a> {
    /// Returns an iterator over the selections that follow their number, and the bytes after them.
    ///
    /// # Errors
    ///
    /// - [`TooShort`](QuoteError::TooShort) if the number or a selection isn't whole.
    /// - [`Selection`](QuoteError::Selection) if a selection isn't one of a PC.
    #[inline]
    pub(crate) fn split(bytes: &'a [u8]) -> Result<(PcrSelectionIter<'a>, &'a [u8]), QuoteError> {
        let (count, rest) = split_u32(bytes)?;
        let after = after_selections(rest, count)?;
        Ok((PcrSelectionIter::new(rest, count), after))
    }

    /// Returns an iterator over the selections that `rest` is known to begin with.
    #[inline]
    pub(crate) fn new(rest: &'a [u8], count: u32) -> PcrSelectionIter<'a> {
        PcrSelectionIter { rest, count }
    }
}

impl<'a> Iterator for PcrSelectionIter<'a> {
    type Item = PcrSelection<'a>;

    #[inline]
    fn next(&mut self) -> Option<PcrSelection<'a>> {
        if self.count == 0 {
            return None;
        }
        let Ok((selection, rest)) = PcrSelection::split(self.rest) else {
            return None;
        };
        *self = PcrSelectionIter::new(rest, self.count - 1);
        Some(selection)
    }

    /// Returns the count of selections that are left, as both bounds.
    #[inline]
    fn size_hint(&self) -> (usize, Option<usize>) {
        let length = self.len();
        (length, Some(length))
    }
}

impl<'a> ExactSizeIterator for PcrSelectionIter<'a> {
    /// Returns the count of selections that are left.
    #[inline]
    fn len(&self) -> usize {
        self.count as usize
    }
}

impl<'a> FusedIterator for PcrSelectionIter<'a> {}

/// Returns the bytes after this many selections.
///
/// # Errors
///
/// The error of the first selection that the bytes don't have.
#[inline]
fn after_selections(bytes: &[u8], count: u32) -> Result<&[u8], QuoteError> {
    let mut rest = bytes;
    for _ in 0..count {
        let (_, after) = PcrSelection::split(rest)?;
        rest = after;
    }
    Ok(rest)
}
