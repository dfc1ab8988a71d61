// @generated from proved source. It is not edited.

#[cfg(feature = "alloc")]
use alloc::vec::Vec;
#[cfg(feature = "alloc")]
use crate::support::fallible::*;

#[cfg(feature = "alloc")]
use crate::formats::uefi_hii::configuration::ConfigurationString;
#[cfg(feature = "alloc")]
use crate::formats::uefi_hii::error::ParseError;
#[cfg(feature = "alloc")]
use crate::formats::uefi_hii::peeked::PeekedPairs;
#[cfg(feature = "alloc")]
use crate::formats::uefi_hii::reading::read_group;
#[cfg(feature = "alloc")]
use crate::support::alloc::AllocError;

/// The configurations of a text, and its errors, in order: an item for each group of pairs.
///
/// A group is the pairs of one configuration, or the pairs up to the one that is wrong, or up to
/// the end of a text that ends too early. After an error the next group begins at the pair after
/// the wrong one. Every pair belongs to one group.
///
/// It makes no list of pairs, and takes memory only for the configurations that it gives. After the
/// last group it stays ended, and so it does after [`ParseError::Memory`]. That item may stand for
/// a group that has an error of its own, as [`ParseError`] says.
///
/// # Examples
///
/// An item is a configuration, an error of the text, or an allocation that failed:
///
/// ```
/// use uefi_formats::AllocError;
/// use uefi_formats::proto::hii::config_str::{MultiConfigurationStringIter, ParseError};
///
/// /// Returns how many configurations and how many errors a text has.
/// fn item_counts(text: &str) -> Result<(usize, usize), AllocError> {
///     let (mut configurations, mut errors) = (0, 0);
///     for item in MultiConfigurationStringIter::new(text) {
///         match item {
///             Ok(_) => configurations += 1,
///             Err(ParseError::Memory) => return Err(AllocError),
///             Err(_) => errors += 1,
///         }
///     }
///     Ok((configurations, errors))
/// }
///
/// let good = "GUID=16d6474bd6a852459d44ccad2e0f4cf9&NAME=0041&PATH=7fff0400&OFFSET=01d8&WIDTH=0001&VALUE=2a";
/// assert_eq!(item_counts(&format!("{good}&{good}")), Ok((2, 0)));
/// assert_eq!(item_counts("GUID=00"), Ok((0, 1)));
/// # Ok::<(), AllocError>(())
/// ```
#[cfg(feature = "alloc")]
#[derive(Debug)]
pub struct MultiConfigurationStringIter<'a> {
    pairs: PeekedPairs<'a>,
}

#[cfg(feature = "alloc")]
impl<'a> MultiConfigurationStringIter<'a> {
    /// Returns the configurations of the text. This takes no memory.
    #[must_use]
    #[inline]
    pub fn new(text: &'a str) -> MultiConfigurationStringIter<'a> {
        MultiConfigurationStringIter {
            pairs: PeekedPairs::new(text),
        }
    }
}

#[cfg(feature = "alloc")]
impl<'a> Iterator for MultiConfigurationStringIter<'a> {
    type Item = Result<ConfigurationString, ParseError>;

    #[inline]
    fn next(&mut self) -> Option<Result<ConfigurationString, ParseError>> {
        if self.pairs.is_empty() {
            return None;
        }
        let result = read_group(&mut self.pairs);
        if is_memory(&result) {
            self.pairs = PeekedPairs::new("");
        }
        Some(result)
    }
}

#[cfg(feature = "alloc")]
impl<'a> core::iter::FusedIterator for MultiConfigurationStringIter<'a> {}

/// Returns all configurations of a text, and its errors, in order: an item for each group of pairs,
/// as [`MultiConfigurationStringIter`] gives them.
///
/// # Errors
///
/// [`AllocError`] if an allocation fails, whatever errors the text has. So no item is
/// [`ParseError::Memory`].
#[cfg(feature = "alloc")]
#[inline]
pub fn parse_all(
    text: &str,
) -> Result<Vec<Result<ConfigurationString, ParseError>>, AllocError> {
    let mut all = Vec::new();
    let mut configurations = MultiConfigurationStringIter::new(text);
    while let Some(result) = configurations.next() {
        if is_memory(&result) {
            return Err(AllocError);
        }
        all.fallible_push(result)?;
    }
    Ok(all)
}

/// Returns whether an allocation failed.
#[cfg(feature = "alloc")]
#[inline]
fn is_memory(item: &Result<ConfigurationString, ParseError>) -> bool {
    matches!(item, Err(ParseError::Memory))
}
