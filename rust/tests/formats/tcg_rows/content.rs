// @generated from proved source. It is not edited.

use crate::tcg_rows::samples::bytes_of;
use crate::tcg_rows::texts::units;
use crate::rows::hex_digits;
use crate::tcg_event::{
    BootOrder, ImageLoadEvent, PlatformFirmwareBlob, PlatformFirmwareBlob2, TaggedEvents,
    VariableData,
};
use crate::test_support::bytes;
use crate::uefi_tcg::UintnSize;
use crate::uefi_tcg::v2::EventLogHeader;

/// Returns the blob that the bytes are: its address and its length.
pub(crate) fn blob(input: &[u8]) -> Option<(u64, u64)> {
    let blob = PlatformFirmwareBlob::read(input)?;
    Some((blob.base, blob.length))
}

/// Returns the description, the address and the length of the blob that the bytes are.
pub(crate) fn described_blob(input: &str) -> Option<String> {
    let input = bytes(input).ok()?;
    let Some(described) = PlatformFirmwareBlob2::read(input.as_slice()) else {
        return fallible_format!("None").ok();
    };
    let description = hex_digits(described.description).ok()?;
    let blob = described.blob;
    fallible_format!("({description}, {}, {})", blob.base, blob.length).ok()
}

/// Returns, of the header that the bytes begin with, the count of algorithms, its length and that of
/// its event.
pub(crate) fn header(input: &[u8]) -> Option<(usize, usize, usize)> {
    let header = EventLogHeader::read(input)?;
    let count = header.algorithm_digest_sizes().len();
    Some((count, header.size_in_bytes(), header.event_size()))
}

/// Returns the tagged events that the bytes begin with, each with its number and its data, and the
/// rest.
pub(crate) fn tagged_events(input: &str) -> Option<String> {
    let input = bytes(input).ok()?;
    let mut text = String::new();
    let mut events = TaggedEvents::new(input.as_slice());
    for _ in 0..input.len() {
        let Some(event) = events.next() else {
            break;
        };
        let data = hex_digits(event.data).ok()?;
        fallible_write!(text, "({}, {data}) ", event.id).ok()?;
    }
    let rest = hex_digits(events.rest()).ok()?;
    fallible_write!(text, "rest: {rest}").ok()?;
    Some(text)
}

/// Returns the GUID, the units of the name and the data of the variable that the bytes are.
pub(crate) fn variable(input: &str) -> Option<String> {
    let input = bytes(input).ok()?;
    let Some(variable) = VariableData::read(input.as_slice()) else {
        return fallible_format!("None").ok();
    };
    let name = units(variable.name)?;
    let data = hex_digits(variable.data).ok()?;
    fallible_format!("({}, {:?}, {data})", variable.guid, name.as_slice()).ok()
}

/// Returns the size of `UINTN`s that an input begins with, and its bytes.
pub(crate) fn size_and_bytes(input: &str) -> Option<(UintnSize, Vec<u8>)> {
    let (size, digits) = input.split_once(" ; ")?;
    let size = match size {
        "4" => UintnSize::Four,
        _ => UintnSize::Eight,
    };
    Some((size, bytes_of(digits)?))
}

/// Returns where in memory the image is, its length there, the address that it was linked for, its
/// device path and the rest.
pub(crate) fn image(input: &str) -> Option<String> {
    let (size, input) = size_and_bytes(input)?;
    let Some(image) = ImageLoadEvent::read(input.as_slice(), size) else {
        return fallible_format!("None").ok();
    };
    let numbers = [
        image.location_in_memory,
        image.length_in_memory,
        image.link_time_address,
    ];
    let path = hex_digits(image.device_path).ok()?;
    let rest = hex_digits(image.rest).ok()?;
    fallible_format!("({numbers:?}, {path}, {rest})").ok()
}

/// Returns the numbers of an order: the same by their indices as by the iterator.
pub(crate) fn boot_order(input: &str) -> Option<String> {
    let input = bytes(input).ok()?;
    let Some(order) = BootOrder::read(input.as_slice()) else {
        return fallible_format!("None").ok();
    };
    let numbers = units(order.numbers())?;
    if !order.iter().eq(numbers.as_slice().iter().copied()) {
        return fallible_format!("another order").ok();
    }
    fallible_format!("{:?}", numbers.as_slice()).ok()
}
