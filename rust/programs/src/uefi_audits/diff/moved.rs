// @generated from proved source. It is not edited.

use crate::uefi_audits::diff::changed::EventPair;
use crate::uefi_audits::diff::difference::EventChange;

/// Returns the first pair whose new event comes before that of an earlier pair; `None` if the
/// events come in the same order in both logs.
pub(crate) fn first_moved<'a>(pairs: &[EventPair<'_, 'a>]) -> Option<EventChange<'a>> {
    let mut last = 0;
    for pair in pairs {
        if pair.new.index < last {
            return Some(pair.copied());
        }
        last = pair.new.index;
    }
    None
}
