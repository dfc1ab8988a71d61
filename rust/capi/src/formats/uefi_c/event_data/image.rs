// @generated from proved source. It is not edited.

use core::mem::MaybeUninit;
use crate::bytes::Bytes;

use crate::formats::uefi_c::status::{self, UefiStatus};
use crate::formats::tcg_event::ImageLoadEvent;
use crate::formats::uefi_tcg::UintnSize;

/// An image that was loaded (TCG PC Client Platform Firmware Profile 1.06, 10.2.3,
/// `UEFI_IMAGE_LOAD_EVENT`).
#[derive(Clone, Copy, Debug)]
#[repr(C)]
pub struct UefiImage<'a> {
    /// The device path: as many bytes as are stated, which needn't be a path.
    pub device_path: Bytes<'a>,
    /// The bytes after it. Where firmware states a length of 0, the path is here.
    pub rest: Bytes<'a>,
    /// The address at which the image was loaded.
    pub location_in_memory: u64,
    /// The length of the image in memory.
    pub length_in_memory: u64,
    /// The address for which the image was linked.
    pub link_time_address: u64,
}

/// Reads the image that the data of an event are, in a log whose header states this size of a
/// `UINTN`: 1 is four bytes, every other number eight.
#[unsafe(no_mangle)]
pub extern "C" fn uefi_image<'a>(
    event_data: Bytes<'a>,
    uintn_size: u8,
    out: &mut MaybeUninit<UefiImage<'a>>,
) -> UefiStatus {
    let event_data = event_data.as_slice();
    let Some(image) = ImageLoadEvent::read(event_data, UintnSize::from_header(uintn_size)) else {
        return status::OTHER_DATA;
    };
    out.write(UefiImage {
        device_path: Bytes::new(image.device_path),
        rest: Bytes::new(image.rest),
        location_in_memory: image.location_in_memory,
        length_in_memory: image.length_in_memory,
        link_time_address: image.link_time_address,
    });
    status::OK
}
