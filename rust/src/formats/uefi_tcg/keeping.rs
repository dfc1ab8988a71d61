// @generated from proved source. It is not edited.

//! What it is to keep to a last entry, as a test.

/// Returns whether an event from `start` to `end` keeps to the last entry.
#[inline]
pub(crate) fn keeps_to(last_entry: usize, start: usize, end: usize) -> bool {
    end <= last_entry || start == last_entry
}
