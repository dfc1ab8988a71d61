// @generated from proved source. It is not edited.

//! What the data of an event say, where they are read.
//!
//! Begin with [`read_content`], which returns an [`EventContent`]. What it holds are views of
//! [`uefi_formats::proto::tcg::content`], of [`uefi_formats::proto::tcg::v2`] and of [`uefi_formats::proto::device_path`], which allocate nothing.

pub use self::tagged::TaggedData;
use crate::uefi_audits::content::path::whole_path;
use crate::uefi_audits::content::variable::{authority_content, variable_content};
use uefi_formats::pcr::locality_in;
use uefi_formats::proto::tcg::content::{
    BootOrder, CrtmVersion, EventText, GptData, ImageLoadEvent, PlatformFirmwareBlob,
    PlatformFirmwareBlob2, SignatureData, SignatureLists, VariableData,
};
use crate::uefi_base::little_endian::u32_at;
use uefi_formats::proto::device_path::{DevicePath, LoadOption};
use uefi_formats::proto::tcg::v2::EventLogHeader;
use uefi_formats::proto::tcg::{EventType, LogEvent, UintnSize};

mod path;
mod tagged;
mod variable;

/// What the data of an event say, where they are read.
#[derive(Clone, Copy, Debug)]
pub enum EventContent<'a> {
    /// Nothing that is read.
    Unread,
    /// A text that names what was measured.
    Text(&'a str),
    /// The number of a separator.
    Separator(u32),
    /// The locality at which the TPM was started.
    Locality(u8),
    /// The header of a log.
    Header(EventLogHeader<'a>),
    /// What a boot loader says of what it measured, or firmware of what it did.
    LoaderText(EventText<'a>),
    /// The version of the static root of trust for measurement.
    CrtmVersion(CrtmVersion<'a>),
    /// A blob of firmware.
    Blob(PlatformFirmwareBlob),
    /// A blob of firmware with a description.
    DescribedBlob(PlatformFirmwareBlob2<'a>),
    /// Tagged events, and the bytes after them.
    Tagged(TaggedData<'a>),
    /// The partition table of a disk.
    Gpt(GptData<'a>),
    /// A variable that was measured, and whose value isn't read.
    Variable(VariableData<'a>),
    /// `Boot0000` and the like: a variable whose value is a boot option.
    BootOption(VariableData<'a>, LoadOption<'a>),
    /// `BootOrder`: a variable whose value is the order of the boot options.
    BootOrder(VariableData<'a>, BootOrder<'a>),
    /// `PK`, `KEK`, `db` and `dbx`: a variable whose value is the lists of a signature database.
    SignatureLists(VariableData<'a>, SignatureLists<'a>),
    /// A variable whose value is the signature by which an image was allowed.
    Signature(VariableData<'a>, SignatureData<'a>),
    /// An image that was loaded, and its device path, if its bytes are one.
    Image(ImageLoadEvent<'a>, Option<DevicePath<'a>>),
}

/// Returns what the data of an event say, by the event's type (TCG PC Client Platform Firmware
/// Profile 1.06, 10.4.1). [`Log::uintn_size`](uefi_formats::proto::tcg::Log::uintn_size) returns the size of a
/// `UINTN` in the event's log.
pub fn read_content<'a>(event: &LogEvent<'a>, uintn_size: UintnSize) -> EventContent<'a> {
    let bytes = event.event_data();
    match event.event_type() {
        EventType::POST_CODE if are_printed(bytes) => text_content(bytes),
        EventType::POST_CODE => blob_content(bytes),
        EventType::NO_ACTION => no_action_content(bytes),
        EventType::SEPARATOR if bytes.len() == 4 => EventContent::Separator(u32_at(bytes, 0)),
        EventType::SEPARATOR => EventContent::Unread,
        EventType::ACTION
        | EventType::OMIT_BOOT_DEVICE_EVENTS
        | EventType::EFI_ACTION
        | EventType::EFI_HCRTM_EVENT
        | EventType::IPL => EventContent::LoaderText(EventText::read(bytes)),
        EventType::EVENT_TAG => EventContent::Tagged(TaggedData::new(bytes)),
        EventType::CRTM_VERSION => EventContent::CrtmVersion(CrtmVersion::read(bytes)),
        EventType::POST_CODE2 | EventType::EFI_PLATFORM_FIRMWARE_BLOB2 => {
            described_blob_content(bytes)
        }
        EventType::EFI_VARIABLE_DRIVER_CONFIG
        | EventType::EFI_VARIABLE_BOOT
        | EventType::EFI_VARIABLE_BOOT2 => variable_content(bytes),
        EventType::EFI_BOOT_SERVICES_APPLICATION
        | EventType::EFI_BOOT_SERVICES_DRIVER
        | EventType::EFI_RUNTIME_SERVICES_DRIVER => image_content(bytes, uintn_size),
        EventType::EFI_GPT_EVENT | EventType::EFI_GPT_EVENT2 => gpt_content(bytes, uintn_size),
        EventType::EFI_PLATFORM_FIRMWARE_BLOB => blob_content(bytes),
        EventType::EFI_VARIABLE_AUTHORITY => authority_content(bytes),
        _ if bytes.is_empty() => EventContent::Unread,
        _ => text_content(bytes),
    }
}

/// Returns the locality that data state, or the header that they have.
fn no_action_content(bytes: &[u8]) -> EventContent<'_> {
    if let Some(locality) = locality_in(bytes) {
        return EventContent::Locality(locality);
    }
    match header_in(bytes) {
        Some(header) => EventContent::Header(header),
        None => EventContent::Unread,
    }
}

/// Returns the header that data begin with.
fn header_in(bytes: &[u8]) -> Option<EventLogHeader<'_>> {
    if bytes.len() > u32::MAX as usize {
        return None;
    }
    EventLogHeader::read(bytes)
}

/// Returns the text that data are, if each byte of them is a printed character or a space.
fn text_content(bytes: &[u8]) -> EventContent<'_> {
    let Ok(text) = core::str::from_utf8(bytes) else {
        return EventContent::Unread;
    };
    if are_printed(bytes) {
        EventContent::Text(text)
    } else {
        EventContent::Unread
    }
}

/// Returns whether each byte is a character of ASCII that prints, or a space.
fn are_printed(bytes: &[u8]) -> bool {
    bytes.iter().all(|byte| matches!(*byte, b' '..=b'~'))
}

/// Returns the blob that data are.
fn blob_content(bytes: &[u8]) -> EventContent<'_> {
    match PlatformFirmwareBlob::read(bytes) {
        Some(blob) => EventContent::Blob(blob),
        None => EventContent::Unread,
    }
}

/// Returns the blob with a description that data are.
fn described_blob_content(bytes: &[u8]) -> EventContent<'_> {
    match PlatformFirmwareBlob2::read(bytes) {
        Some(blob) => EventContent::DescribedBlob(blob),
        None => EventContent::Unread,
    }
}

/// Returns the partition table that data are.
fn gpt_content(bytes: &[u8], uintn_size: UintnSize) -> EventContent<'_> {
    match GptData::read(bytes, uintn_size) {
        Some(gpt) => EventContent::Gpt(gpt),
        None => EventContent::Unread,
    }
}

/// Returns the image that data are, with its device path.
fn image_content(bytes: &[u8], uintn_size: UintnSize) -> EventContent<'_> {
    match ImageLoadEvent::read(bytes, uintn_size) {
        Some(image) => EventContent::Image(image, whole_path(image.device_path)),
        None => EventContent::Unread,
    }
}
