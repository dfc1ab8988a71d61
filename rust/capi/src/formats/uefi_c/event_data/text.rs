// @generated from proved source. It is not edited.

use core::mem::MaybeUninit;
use crate::bytes::Bytes;

use crate::formats::uefi_c::cursor::units_at;
use crate::formats::uefi_c::status::{self, UefiStatus};
use crate::formats::tcg_event::EventText;

/// The text of an event (TCG PC Client Platform Firmware Profile 1.06, 10.4.1, `EV_IPL`).
#[derive(Clone, Copy, Debug)]
#[repr(C)]
pub struct UefiEventText<'a> {
    /// The bytes of the text, without the NUL: UTF-8, or units of UTF-16, of two bytes each,
    /// little-endian.
    pub text: Bytes<'a>,
    /// Whether these are units of UTF-16.
    pub is_utf16: bool,
    /// Whether a NUL follows them.
    pub has_nul: bool,
}

/// Reads the text that the data of an event are.
#[unsafe(no_mangle)]
pub extern "C" fn uefi_event_text<'a>(
    event_data: Bytes<'a>,
    out: &mut MaybeUninit<UefiEventText<'a>>,
) -> UefiStatus {
    let event_data = event_data.as_slice();
    let Some(text) = seen(event_data, &EventText::read(event_data)) else {
        return status::OTHER_DATA;
    };
    out.write(text);
    status::OK
}

/// Returns the text that the bytes are, with its bytes; `None` if they are no text.
#[inline]
pub(crate) fn seen<'a>(bytes: &'a [u8], text: &EventText<'a>) -> Option<UefiEventText<'a>> {
    match text {
        EventText::Utf8 { text, has_nul } => Some(UefiEventText {
            text: Bytes::new(text.as_bytes()),
            is_utf16: false,
            has_nul: *has_nul,
        }),
        EventText::Utf16 { units, has_nul } => Some(UefiEventText {
            text: Bytes::new(units_at(bytes, 0, units.len())),
            is_utf16: true,
            has_nul: *has_nul,
        }),
        EventText::Other(_) => None,
    }
}
