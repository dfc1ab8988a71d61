// @generated from proved source. It is not edited.

use crate::support::fallible::*;

use crate::audit_text::text::events::names::push_algorithm;
use crate::support::alloc::AllocError;
use uefi_formats::proto::tcg::{AlgorithmId, LogEvent};

/// Returns the digests of two events that differ, of each of some algorithms.
pub(crate) fn digest_changes(
    algorithms: &[AlgorithmId],
    old: &LogEvent<'_>,
    new: &LogEvent<'_>,
) -> Result<String, AllocError> {
    let mut changes = Vec::new();
    for algorithm in algorithms {
        let change = digest_change(*algorithm, old, new)?;
        if !change.is_empty() {
            changes.fallible_push(change)?;
        }
    }
    changes.fallible_join(", ")
}

/// Returns the digests of an algorithm that two events have; nothing if they are the same.
fn digest_change(
    algorithm: AlgorithmId,
    old: &LogEvent<'_>,
    new: &LogEvent<'_>,
) -> Result<String, AllocError> {
    let old = digest_text(algorithm, old)?;
    let new = digest_text(algorithm, new)?;
    let mut words = String::new();
    if old.as_str() == new.as_str() {
        return Ok(words);
    }
    push_algorithm(&mut words, algorithm)?;
    fallible_write!(words, "{old} ->{new}")?;
    Ok(words)
}

/// Returns the digests of an algorithm that an event has, each after a space, or ` none`.
pub(crate) fn digest_text(
    algorithm: AlgorithmId,
    event: &LogEvent<'_>,
) -> Result<String, AllocError> {
    let text = digests_hex(algorithm, event)?;
    if text.is_empty() {
        return String::fallible_from_str(" none");
    }
    Ok(text)
}

/// Returns the digests of an algorithm that an event has, each after a space.
fn digests_hex(
    algorithm: AlgorithmId,
    event: &LogEvent<'_>,
) -> Result<String, AllocError> {
    let mut text = String::new();
    for (of, digest) in event.digests() {
        push_digest(&mut text, algorithm, of, digest)?;
    }
    Ok(text)
}

/// Appends a space and a digest, if it is one of an algorithm.
fn push_digest(
    text: &mut String,
    algorithm: AlgorithmId,
    of: AlgorithmId,
    digest: &[u8],
) -> Result<(), AllocError> {
    if of != algorithm {
        return Ok(());
    }
    let digits = crate::hex::encode(digest)?;
    fallible_write!(text, " {digits}")
}
