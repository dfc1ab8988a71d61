// @generated from proved source. It is not edited.

use core::mem::MaybeUninit;
use crate::bytes::Bytes;

use crate::formats::uefi_c::cursor::bytes_from;
use crate::formats::uefi_c::status::{self, UefiStatus};
use crate::formats::tcg_event::{TaggedEvent, TaggedEvents};

/// A tagged event (TCG PC Client Platform Firmware Profile 1.06, 10.4.1,
/// `TCG_PCClientTaggedEvent`).
#[derive(Clone, Copy, Debug)]
#[repr(C)]
pub struct UefiTaggedEvent<'a> {
    /// The data.
    pub value: Bytes<'a>,
    /// The number that says what the data are.
    pub id: u32,
}

/// Reads the tagged event at the offset of an event's data, and moves the offset to its end.
#[unsafe(no_mangle)]
pub extern "C" fn uefi_tagged_next<'a>(
    event_data: Bytes<'a>,
    offset: &mut usize,
    out: &mut MaybeUninit<UefiTaggedEvent<'a>>,
) -> UefiStatus {
    let event_data = event_data.as_slice();
    let Some((tagged, end)) = tagged_at(event_data, *offset) else {
        return if *offset < event_data.len() {
            status::CUT
        } else {
            status::END
        };
    };
    out.write(UefiTaggedEvent {
        value: Bytes::new(tagged.data),
        id: tagged.id,
    });
    *offset = end;
    status::OK
}

/// Returns the tagged event at the offset, and the offset of its end.
#[inline]
fn tagged_at(event_data: &[u8], offset: usize) -> Option<(TaggedEvent<'_>, usize)> {
    let bytes = bytes_from(event_data, offset)?;
    let mut events = TaggedEvents::new(bytes);
    let tagged = events.next()?;
    Some((tagged, event_data.len() - events.rest().len()))
}
