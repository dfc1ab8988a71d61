// @generated from proved source. It is not edited.

//! Pairs of which the next is cut already, so that a reader can look at it before it takes it.

#[cfg(feature = "alloc")]
use crate::formats::uefi_hii::keys;
#[cfg(feature = "alloc")]
use crate::formats::uefi_hii::pairs::ConfigurationStringIter;

/// The pairs of a text. The next is kept, so each is cut once, however often a reader looks at it.
#[cfg(feature = "alloc")]
#[derive(Clone, Copy, Debug)]
pub(crate) struct PeekedPairs<'a> {
    next: Option<(&'a str, Option<&'a str>)>,
    after: ConfigurationStringIter<'a>,
}

#[cfg(feature = "alloc")]
impl<'a> PeekedPairs<'a> {
    /// Returns the pairs of the text.
    #[cfg(feature = "alloc")]
    #[inline]
    pub(crate) fn new(text: &'a str) -> PeekedPairs<'a> {
        let mut after = ConfigurationStringIter::new(text);
        let next = after.next();
        PeekedPairs { next, after }
    }

    /// Returns whether no pair is left.
    #[inline]
    pub(crate) fn is_empty(&self) -> bool {
        self.next.is_none()
    }

    /// Returns whether the next pair has the key.
    #[cfg(feature = "alloc")]
    #[inline]
    pub(crate) fn is_at(&self, key: &str) -> bool {
        self.next.is_some_and(|(found, _)| found == key)
    }

    /// Takes the next pair.
    #[inline]
    pub(crate) fn next(&mut self) -> Option<(&'a str, Option<&'a str>)> {
        let pair = self.next?;
        self.next = self.after.next();
        Some(pair)
    }

    /// Takes the next pair, if an element skips it.
    #[cfg(feature = "alloc")]
    #[inline]
    pub(crate) fn next_skipped(&mut self) -> Option<(&'a str, Option<&'a str>)> {
        if self.is_at(keys::OFFSET) || self.is_at(keys::GUID) {
            return None;
        }
        self.next()
    }
}
