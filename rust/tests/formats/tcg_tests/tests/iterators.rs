// @generated from proved source. It is not edited.

//! Copies of iterators.

use crate::support::fallible::*;

use crate::support::test::Fail;
use crate::tcg_event::TaggedEvents;
use crate::test_support::samples::{FOUR_EVENTS, FOUR_HEADER, LOG1};
use crate::test_support::{bytes, holds, joined_bytes, same};
use crate::uefi_tcg::{v1, v2};

/// Returns the bytes of a version 2 log of two events.
fn four() -> Result<Vec<u8>, Fail> {
    joined_bytes(&[FOUR_HEADER, FOUR_EVENTS])
}

#[test]
fn a_clone_stays_where_it_was_made() -> Result<(), Fail> {
    let input = bytes(LOG1)?;
    let log = v1::EventLog::new(Some(input.as_slice()), Some(34), false);
    let mut events = log.fallible_clone()?.iter();
    let clone = events.fallible_clone()?;
    events.next();
    same("version 1", &(events.offset(), clone.offset()), &(34, 0))?;
    let input = four()?;
    let log = v2::EventLog::new(Some(input.as_slice()), Some(usize::MAX), false);
    let mut events = log.fallible_clone()?.iter();
    let clone = events.fallible_clone()?;
    events.next();
    holds("version 2", clone.offset() < events.offset())?;
    let input = bytes("01000000 00000000  02000000 01000000 aa")?;
    let mut events = TaggedEvents::new(input.as_slice());
    let clone = events.fallible_clone()?;
    events.next();
    let left = (events.rest().len(), clone.rest().len());
    same("tagged events", &left, &(9, 17))
}
