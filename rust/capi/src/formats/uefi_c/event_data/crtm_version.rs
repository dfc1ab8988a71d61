// @generated from proved source. It is not edited.

use core::mem::MaybeUninit;
use crate::bytes::Bytes;

use super::text::{UefiEventText, seen};
use crate::formats::uefi_c::cursor::units_at;
use crate::formats::uefi_c::status::{self, UefiStatus};
use crate::formats::tcg_event::CrtmVersion;

// The forms of a version.

/// A string of UCS-2 that a NUL ends.
const UCS2: u32 = 0;

/// A GUID.
const GUID: u32 = 1;

/// Another text.
const OTHER: u32 = 2;

/// The version of the static root of trust for measurement (TCG PC Client Platform Firmware Profile
/// 1.06, 10.4.1, `EV_S_CRTM_VERSION`).
#[derive(Clone, Copy, Debug)]
#[repr(C)]
pub struct UefiCrtmVersion<'a> {
    /// The text without its NUL. If the version is a GUID, its sixteen bytes.
    pub text: UefiEventText<'a>,
    /// The form: 0 for a string of UCS-2 that a NUL ends, 1 for a GUID, 2 for another text.
    pub form: u32,
}

/// Reads the version that the data of an event are.
#[unsafe(no_mangle)]
pub extern "C" fn uefi_event_crtm_version<'a>(
    event_data: Bytes<'a>,
    out: &mut MaybeUninit<UefiCrtmVersion<'a>>,
) -> UefiStatus {
    let event_data = event_data.as_slice();
    match CrtmVersion::read(event_data) {
        CrtmVersion::Ucs2(units) => {
            let text = UefiEventText {
                text: Bytes::new(units_at(event_data, 0, units.len())),
                is_utf16: true,
                has_nul: true,
            };
            out.write(UefiCrtmVersion { text, form: UCS2 });
            status::OK
        }
        CrtmVersion::Guid(_) => {
            let text = UefiEventText {
                text: Bytes::new(event_data),
                is_utf16: false,
                has_nul: false,
            };
            out.write(UefiCrtmVersion { text, form: GUID });
            status::OK
        }
        CrtmVersion::Other(text) => {
            let Some(text) = seen(event_data, &text) else {
                return status::OTHER_DATA;
            };
            out.write(UefiCrtmVersion { text, form: OTHER });
            status::OK
        }
    }
}
