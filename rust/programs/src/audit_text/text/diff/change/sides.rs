// @generated from proved source. It is not edited.

use crate::support::fallible::*;

use crate::support::alloc::AllocError;

/// Returns what the old side of a change has and what the new one has; nothing if neither has text.
pub(crate) fn change_between(old: &str, new: &str) -> Result<String, AllocError> {
    let mut words = String::new();
    if old.is_empty() && new.is_empty() {
        return Ok(words);
    }
    push_side(&mut words, old)?;
    words.fallible_push_str(" -> ")?;
    push_side(&mut words, new)?;
    Ok(words)
}

/// Appends what one side has, or `nothing`.
fn push_side(words: &mut String, side: &str) -> Result<(), AllocError> {
    if side.is_empty() {
        return words.fallible_push_str("nothing");
    }
    words.fallible_push_str(side)
}
