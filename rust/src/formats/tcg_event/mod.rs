// @generated from proved source. It is not edited.

//! What the data of an event say (TCG PC Client Platform Firmware Profile 1.06, 10).
//!
//! Begin with the event's type: the table names the type of its data, whose `read` takes the bytes
//! that `event_data` of [`LogEvent`](crate::formats::uefi_tcg::LogEvent) returns.
//!
//! The type of an event says which structure its data are. A `read` returns the value whose
//! encoding the bytes are, whole and alone, or `None` if they are that of none. Those of
//! [`EventText`] and [`CrtmVersion`] also return bytes that are no text. [`TaggedEvents`] iterates
//! over as many as there are. A value is a view: it borrows the bytes and allocates
//! nothing. The data of an image and of a partition table have `UINTN`s, whose size the log's header
//! states: their `read` takes a [`UintnSize`](crate::formats::uefi_tcg::UintnSize).
//!
//! | type of the event | data |
//! |---|---|
//! | `EV_EFI_VARIABLE_DRIVER_CONFIG`, `_BOOT`, `_BOOT2`, `_AUTHORITY` | [`VariableData`] |
//! | `EV_EFI_BOOT_SERVICES_APPLICATION`, `_DRIVER` | [`ImageLoadEvent`] |
//! | `EV_EFI_RUNTIME_SERVICES_DRIVER` | [`ImageLoadEvent`] |
//! | `EV_EFI_GPT_EVENT` | [`GptData`] |
//! | `EV_EFI_PLATFORM_FIRMWARE_BLOB`, `EV_POST_CODE` | [`PlatformFirmwareBlob`] |
//! | `EV_EFI_PLATFORM_FIRMWARE_BLOB2`, `EV_POST_CODE2` | [`PlatformFirmwareBlob2`] |
//! | `EV_S_CRTM_VERSION` | [`CrtmVersion`] |
//! | `EV_EVENT_TAG` | [`TaggedEvents`] |
//! | `EV_IPL` | [`EventText`] |
//!
//! The data of an `EV_POST_CODE` may be a text as well. The event that a version 2 log begins with
//! has a header, which [`EventLogHeader::read`](crate::formats::uefi_tcg::v2::EventLogHeader::read) returns.
//!
//! The value of a variable may be a [`BootOrder`] (`BootOrder`), [`SignatureLists`] (`db`, `dbx`, `KEK`,
//! `PK`) or, in an event of type `EV_EFI_VARIABLE_AUTHORITY`, a [`SignatureData`]. Shim logs
//! variables of its own, such as `SbatLevel`, by events of that type: their values are texts or
//! signature lists.

pub use self::blob::{PlatformFirmwareBlob, PlatformFirmwareBlob2};
pub use self::boot_order::BootOrder;
pub use self::crtm_version::CrtmVersion;
pub use self::gpt::{GptData, GptEntry, GptEntryIter, GptHeader};
pub use self::image::ImageLoadEvent;
pub use self::signature::{
    SignatureData, SignatureIter, SignatureList, SignatureListIter, SignatureLists, SignatureType,
};
pub use self::tagged::{TaggedEvent, TaggedEvents};
pub use self::text::EventText;
pub use self::variable::VariableData;

mod blob;
mod boot_order;
mod crtm_version;
mod gpt;
mod image;
mod signature;
mod tagged;
mod text;
mod uintn;
mod variable;
