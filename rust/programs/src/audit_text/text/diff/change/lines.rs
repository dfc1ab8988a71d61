// @generated from proved source. It is not edited.

use crate::support::fallible::*;

use crate::audit_text::text::diff::change::sides::change_between;
use crate::support::alloc::AllocError;
use crate::support::collections::BTreeSet;

/// Returns the lines that only one of two blocks has, without their indent; nothing if both have
/// the same ones.
pub(crate) fn line_change(old: &str, new: &str) -> Result<String, AllocError> {
    let old = lines_of(old)?;
    let new = lines_of(new)?;
    let only_old = only_text(new.as_slice(), old.as_slice())?;
    let only_new = only_text(old.as_slice(), new.as_slice())?;
    change_between(only_old.as_str(), only_new.as_str())
}

/// Returns the lines of a block without their indent.
fn lines_of<'a>(block: &'a str) -> Result<Vec<&'a str>, AllocError> {
    block.lines().map(|line| line.trim_start()).fallible_collect()
}

/// Returns those of some lines that aren't among others, as one text.
fn only_text(others: &[&str], lines: &[&str]) -> Result<String, AllocError> {
    let only = lines_only(others, lines)?;
    only.fallible_join("; ")
}

/// Returns those of some lines that aren't among others.
fn lines_only<'a>(
    others: &[&str],
    lines: &[&'a str],
) -> Result<Vec<&'a str>, AllocError> {
    let others = set_of(others)?;
    let mut only = Vec::new();
    for line in lines {
        if !others.contains(*line) {
            only.fallible_push(*line)?;
        }
    }
    Ok(only)
}

/// Returns lines as a set.
fn set_of<'a>(lines: &[&'a str]) -> Result<BTreeSet<&'a str>, AllocError> {
    let mut set = BTreeSet::new();
    for line in lines {
        set.insert(*line)?;
    }
    Ok(set)
}
