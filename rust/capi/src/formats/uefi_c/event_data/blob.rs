// @generated from proved source. It is not edited.

use core::mem::MaybeUninit;
use crate::bytes::Bytes;

use crate::formats::uefi_c::status::{self, UefiStatus};
use crate::formats::tcg_event::{PlatformFirmwareBlob, PlatformFirmwareBlob2};

/// A blob of firmware (TCG PC Client Platform Firmware Profile 1.06, 10.2,
/// `UEFI_PLATFORM_FIRMWARE_BLOB`, `UEFI_PLATFORM_FIRMWARE_BLOB2`).
#[derive(Clone, Copy, Debug)]
#[repr(C)]
pub struct UefiBlob<'a> {
    /// The description, which is ASCII as a rule: at most 255 bytes. A blob without one has none.
    pub description: Bytes<'a>,
    /// The address of the blob in memory.
    pub base: u64,
    /// The length of the blob.
    pub length: u64,
}

/// Reads the blob without a description that the data of an event are.
#[unsafe(no_mangle)]
pub extern "C" fn uefi_blob<'a>(event_data: Bytes<'a>, out: &mut MaybeUninit<UefiBlob<'a>>) -> UefiStatus {
    let event_data = event_data.as_slice();
    let Some(blob) = PlatformFirmwareBlob::read(event_data) else {
        return status::OTHER_DATA;
    };
    out.write(UefiBlob {
        description: Bytes::new(&[]),
        base: blob.base,
        length: blob.length,
    });
    status::OK
}

/// Reads the blob with a description that the data of an event are.
#[unsafe(no_mangle)]
pub extern "C" fn uefi_blob2<'a>(event_data: Bytes<'a>, out: &mut MaybeUninit<UefiBlob<'a>>) -> UefiStatus {
    let event_data = event_data.as_slice();
    let Some(described) = PlatformFirmwareBlob2::read(event_data) else {
        return status::OTHER_DATA;
    };
    out.write(UefiBlob {
        description: Bytes::new(described.description),
        base: described.blob.base,
        length: described.blob.length,
    });
    status::OK
}
