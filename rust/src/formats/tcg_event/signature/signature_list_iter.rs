// @generated from proved source. It is not edited.

use super::signature_list::SignatureList;
use core::iter::FusedIterator;

/// An iterator over the lists of a signature database, in order.
///
/// Each list lives as long as the source bytes. After the last list the iterator returns `None`
/// forever.
#[derive(Clone, Copy)]
pub struct SignatureListIter<'a> {
    rest: &'a [u8],
}

impl core::fmt::Debug for SignatureListIter<'_> {
    fn fmt(&self, f: &mut core::fmt::Formatter<'_>) -> core::fmt::Result {
        f.debug_struct("SignatureListIter")
            .field("rest", &crate::support::debug::Bytes(self.rest))
            .finish()
    }
}

impl<'a> SignatureListIter<'a> {
    /// Returns an iterator over the lists in `rest`.
    #[inline]
    pub(crate) fn new(rest: &'a [u8]) -> SignatureListIter<'a> {
        SignatureListIter { rest }
    }
}

impl<'a> Iterator for SignatureListIter<'a> {
    type Item = SignatureList<'a>;

    #[inline]
    fn next(&mut self) -> Option<SignatureList<'a>> {
        let (list, after) = SignatureList::split(self.rest)?;
        *self = SignatureListIter::new(after);
        Some(list)
    }
}

impl<'a> FusedIterator for SignatureListIter<'a> {}
