// @generated from proved source. It is not edited.

use crate::support::fallible::*;

use crate::support::alloc::AllocError;
use core::slice::Iter;
use uefi_formats::proto::tcg::{AlgorithmId, LogEvent};

/// A digest with its algorithm.
type EventDigest<'a> = (AlgorithmId, &'a [u8]);

/// Which parts of events are compared, beside their PCRs and their types.
#[derive(Clone, Copy, Debug)]
pub struct ComparedParts<'p> {
    /// The algorithms whose digests are.
    pub algorithms: &'p [AlgorithmId],
    /// Whether their data are. If not, events are paired by their digests too.
    pub with_data: bool,
}

/// Returns whether two events are the same, as far as these parts tell: they are of one PCR and one
/// type, have the same digests of each algorithm, in order, and the same data, if those are compared.
///
/// The digests of an event are read once, and kept for that time.
///
/// # Errors
///
/// [`AllocError`] if an allocation fails.
pub fn is_same_event(
    parts: &ComparedParts<'_>,
    one: &LogEvent<'_>,
    other: &LogEvent<'_>,
) -> Result<bool, AllocError> {
    if !is_same_but_digests(parts.with_data, one, other) {
        return Ok(false);
    }
    let ones: Vec<EventDigest<'_>> = one.digests().fallible_collect()?;
    let others: Vec<EventDigest<'_>> = other.digests().fallible_collect()?;
    Ok(are_same_digests(parts.algorithms, ones.as_slice(), others.as_slice()))
}

/// Returns whether two events are of one PCR and one type, and have the same data, if those are
/// compared.
fn is_same_but_digests(with_data: bool, one: &LogEvent<'_>, other: &LogEvent<'_>) -> bool {
    one.pcr_index() == other.pcr_index()
        && one.event_type() == other.event_type()
        && (!with_data || one.event_data() == other.event_data())
}

/// Returns whether these digests have the same ones of each algorithm, in order.
fn are_same_digests(
    algorithms: &[AlgorithmId],
    ones: &[EventDigest<'_>],
    others: &[EventDigest<'_>],
) -> bool {
    for algorithm in algorithms {
        if !has_same_digests(*algorithm, ones, others) {
            return false;
        }
    }
    true
}

/// Returns whether these digests have the same ones of an algorithm, in order.
fn has_same_digests(
    algorithm: AlgorithmId,
    ones: &[EventDigest<'_>],
    others: &[EventDigest<'_>],
) -> bool {
    let mut ones_left = ones.iter();
    let mut others_left = others.iter();
    while let Some(digest) = next_digest(&mut ones_left, algorithm) {
        if next_digest(&mut others_left, algorithm) != Some(digest) {
            return false;
        }
    }
    next_digest(&mut others_left, algorithm).is_none()
}

/// Returns the next digest of an algorithm, and passes over those of others.
fn next_digest<'a>(
    digests: &mut Iter<'_, EventDigest<'a>>,
    algorithm: AlgorithmId,
) -> Option<&'a [u8]> {
    while let Some((id, digest)) = digests.next() {
        if *id == algorithm {
            return Some(*digest);
        }
    }
    None
}
