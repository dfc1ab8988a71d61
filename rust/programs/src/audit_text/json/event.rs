// @generated from proved source. It is not edited.

use crate::audit_text::json::content::content_json;
use crate::audit_text::json::digests::{digests_json, hashed_banks};
use crate::audit_text::json::line::line_of;
use crate::serde_json::{Value, json};
use crate::support::alloc::AllocError;
use crate::uefi_audits::content::{EventContent, read_content};
use uefi_formats::proto::tcg::{EventType, LogEntry, UintnSize};

/// Returns an event as one line of JSON, without a line's end: an object with the name of its log,
/// the event's index in it, and what the event holds. The log has a `UINTN` of this size
/// ([`Log::uintn_size`](uefi_formats::proto::tcg::Log::uintn_size)).
///
/// | key | value |
/// |---|---|
/// | `content` | what the data say, as below; `null` where they aren't read |
/// | `data` | the data in hex |
/// | `digests` | for each digest, in order, an object with `algorithm` and `digest` |
/// | `hashes_to` | the names of the banks whose digest is the hash of the data |
/// | `index`, `log` | what was given |
/// | `offset` | where the event starts in the log's bytes |
/// | `pcr` | the index of the PCR |
/// | `type` | an object with `name`, if the type has one, and `number` |
///
/// An algorithm is its name, or the number of one without a name; a digest is in hex. A bank is in
/// `hashes_to` if the event has one digest of it, of its length, and that is the hash.
///
/// | type of the event | `content` |
/// |---|---|
/// | `EV_NO_ACTION` | `locality`, if the data are `StartupLocality`, a zero byte and it; `header`, if they begin with the header of a log |
/// | `EV_SEPARATOR` | `separator`, the number that four bytes of data are |
/// | `EV_IPL`, `EV_ACTION`, `EV_EFI_ACTION`, `EV_OMIT_BOOT_DEVICE_EVENTS`, `EV_EFI_HCRTM_EVENT` | `text`, without the NUL that may end it |
/// | `EV_S_CRTM_VERSION` | `crtm_version`: a text, or a GUID |
/// | `EV_EFI_PLATFORM_FIRMWARE_BLOB` | `blob`, with `address` and `length` |
/// | `EV_EFI_PLATFORM_FIRMWARE_BLOB2`, `EV_POST_CODE2` | `blob`, with `description` as well |
/// | `EV_POST_CODE` | `text`, if all bytes of the data print; else `blob` |
/// | `EV_EVENT_TAG` | `tagged_events` |
/// | `EV_EFI_GPT_EVENT`, `EV_EFI_GPT_EVENT2` | `gpt` |
/// | `EV_EFI_VARIABLE_DRIVER_CONFIG`, `_BOOT`, `_BOOT2`, `_AUTHORITY` | `variable` |
/// | `EV_EFI_BOOT_SERVICES_APPLICATION`, `_DRIVER`, `EV_EFI_RUNTIME_SERVICES_DRIVER` | `image` |
/// | others | `text`, if all bytes of the data print |
///
/// The text of such an event, and of a tagged event, is UTF-8 or else UTF-16, as
/// [`EventText`](uefi_formats::proto::tcg::content::EventText) reads it. Of bytes that are neither, each is its character
/// of ASCII, if that prints, or `\x` and two hex digits; a backslash is too. Other data, as the value of
/// a variable, are a text if they are two or more characters of ASCII that print, tabs and ends of lines,
/// of one byte or two each, with a NUL at the end or without one. In names U+FFFD stands for a surrogate.
/// Bytes are in hex, and GUIDs are text.
///
/// | object | keys |
/// |---|---|
/// | `header` | `algorithms`, each with `algorithm` and `size`; `errata`, `major`, `minor`, `platform_class`, `uintn_size`, `vendor_info` |
/// | `tagged_events` | `events`, each with `data`, `id` and `text`, and `name`, if the tag has one; `rest`, the bytes after them, if there are any |
/// | `gpt` | `disk_guid`, `first_usable_lba`, `last_usable_lba`; `partitions`, each with `attributes`, `first_lba`, `last_lba`, `name`, `type_guid` and `unique_guid` |
/// | `variable` | `data`, `guid`, `name`; `value`, if it is read: an object with one of the keys below; else `text`, if the data are one |
/// | `image` | `address`, `length`, `link_address`; `path`; `rest`, the bytes after it, if there are any; `text`, the path as text, if it is one |
///
/// A path is an array of the nodes of a device path but the one that ends it, each with `data`,
/// `subtype` and `type`. The path of an image is its bytes in hex, if they are no device path. The
/// text of a path is the one that [`uefi_formats::proto::device_path::text::to_text`] returns.
///
/// | `value` | of |
/// |---|---|
/// | `boot_option`: `attributes`, `description`, `optional_data`, `optional_text`, if these are one, `path`, `text` | `Boot0000` and the like |
/// | `boot_order`: an array of numbers | `BootOrder` |
/// | `signature_lists`: each with `header`, `signatures` and `type`, a GUID | `PK`, `KEK`, `db`, `dbx` |
/// | `signature` | in `EV_EFI_VARIABLE_AUTHORITY`: firmware's databases, shim's `MokList` |
///
/// A signature has `owner`, and `data`, if these are at most 80 bytes, as each hash is. A longer
/// one, as a certificate, has `length` and `sha256`, those of its data.
///
/// # Errors
///
/// [`AllocError`] if an allocation fails.
pub fn event_line(
    log: &str,
    index: usize,
    entry: &LogEntry<'_>,
    uintn_size: UintnSize,
) -> Result<String, AllocError> {
    let content = read_content(&entry.event, uintn_size);
    let value = event_json(log, index, entry, &content)?;
    line_of(&value)
}

/// Returns an event as JSON, with what its data say.
pub(crate) fn event_json(
    log: &str,
    index: usize,
    entry: &LogEntry<'_>,
    content: &EventContent<'_>,
) -> Result<Value, AllocError> {
    let event = &entry.event;
    let content = content_json(content)?;
    let data = hex_json(event.event_data())?;
    let digests = Value::Array(digests_json(event)?);
    let hashes_to = Value::Array(hashed_banks(event)?);
    let kind = type_json(event.event_type())?;
    json!({
        "content": content, "data": data, "digests": digests, "hashes_to": hashes_to,
        "index": index, "log": log, "offset": entry.offset, "pcr": event.pcr_index().0, "type": kind
    })
}

/// Returns bytes as a text of hex digits.
pub(crate) fn hex_json(bytes: &[u8]) -> Result<Value, AllocError> {
    Ok(Value::String(crate::hex::encode(bytes)?))
}

/// Returns a type: its name, if it has one, and its number.
pub(crate) fn type_json(event_type: EventType) -> Result<Value, AllocError> {
    let number = event_type.0;
    match event_type.name() {
        Some(name) => json!({"name": name, "number": number}),
        None => json!({"number": number}),
    }
}
