// @generated from proved source. It is not edited.

use core::mem::MaybeUninit;
use crate::bytes::Bytes;

use crate::formats::uefi_c::status::{self, UefiStatus};
use crate::formats::uefi_hii::ConfigurationString;

/// Reads the number that a text in UTF-8 spells in hex, the highest byte first: 1, 2, 4 or 8 bytes.
#[unsafe(no_mangle)]
pub extern "C" fn uefi_config_number(text: Bytes<'_>, out: &mut MaybeUninit<u64>) -> UefiStatus {
    let text = text.as_slice();
    let Ok(text) = core::str::from_utf8(text) else {
        return status::NOT_NUMBER;
    };
    let Some(number) = ConfigurationString::parse_number_from_hex(text) else {
        return status::NOT_NUMBER;
    };
    out.write(number);
    status::OK
}
