// @generated from proved source. It is not edited.

use crate::support::fallible::*;

use crate::audit_text::text::diff::change::prefix::common_prefix_length;
use crate::audit_text::text::diff::change::sides::change_between;
use crate::support::alloc::AllocError;

/// Returns the words of two texts, as they are shown, from the first that differs; nothing if none
/// does.
pub(crate) fn word_change(old: &str, new: &str) -> Result<String, AllocError> {
    let old = words_of(old)?;
    let new = words_of(new)?;
    let index = common_count(old.as_slice(), new.as_slice());
    words_between(index, old.as_slice(), new.as_slice())
}

/// Returns the words of both sides from an index.
fn words_between(
    index: usize,
    old: &[&str],
    new: &[&str],
) -> Result<String, AllocError> {
    let old = words_from(index, old)?;
    let new = words_from(index, new)?;
    change_between(old.as_str(), new.as_str())
}

/// Returns the words of a text, which spaces separate.
fn words_of<'a>(text: &'a str) -> Result<Vec<&'a str>, AllocError> {
    text.split(' ').fallible_collect()
}

/// Returns how many first words both texts have.
fn common_count(old: &[&str], new: &[&str]) -> usize {
    common_prefix_length(old, new)
}

/// Returns the words from an index, after `.. ` for those before them.
fn words_from(index: usize, words: &[&str]) -> Result<String, AllocError> {
    let rest = joined_words(index, words)?;
    if index == 0 || rest.is_empty() {
        return Ok(rest);
    }
    fallible_format!(".. {rest}")
}

/// Returns the words from an index, with spaces between them.
fn joined_words(index: usize, words: &[&str]) -> Result<String, AllocError> {
    let (_, rest) = words.split_at(index);
    rest.fallible_join(" ")
}
