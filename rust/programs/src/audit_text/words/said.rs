// @generated from proved source. It is not edited.

use crate::support::fallible::*;

use crate::audit_text::words::path_text;
use crate::audit_text::words::tags::push_tag;
use crate::audit_text::words::texts::name_text;
use crate::shown::{Hex, HexNumber, ShownBytes, ShownName};
use crate::support::alloc::AllocError;
use uefi_formats::proto::tcg::content::{CrtmVersion, EventText, ImageLoadEvent};
use crate::uefi_audits::content::{EventContent, TaggedData};
use uefi_formats::UnalignedSlice;
use uefi_formats::proto::device_path::DevicePath;

/// The most characters of a text or of a name that are shown.
const SHOWN_LENGTH: usize = 1000;

/// Appends in a few words what data say; nothing if they aren't read.
///
///
/// | data | words |
/// |---|---|
/// | a text, a version | it |
/// | a separator | `separator` and its number |
/// | a locality | `locality` and its number |
/// | the header of a log | `header` |
/// | tagged events | `tag`, the name of the first one's tag, if it has one, and its number |
/// | a blob | `blob at` and its address |
/// | a blob with a description | `blob` and the description |
/// | a partition table | `disk` and the GUID of the disk |
/// | a variable | `variable` and its name |
/// | an image | `image` and its device path, if it has one |
///
/// A text, a description or a name is shown as [`ShownName`] or [`ShownBytes`] displays it. Of more
/// than 1,000 characters the first are shown, and how many there are more: `..(23 more)`. A device
/// path is shown whole, as [`uefi_formats::proto::device_path::text::to_text`] returns it. If the bytes are no path, they are in
/// hex, in the same way.
///
/// # Errors
///
/// [`AllocError`] if an allocation fails. The text may have grown then.
pub fn push_said(
    text: &mut String,
    content: &EventContent<'_>,
) -> Result<(), AllocError> {
    match content {
        EventContent::Unread => Ok(()),
        EventContent::Text(said) => push_bytes(text, said.as_bytes()),
        EventContent::Separator(number) => fallible_write!(text, "separator {number}"),
        EventContent::Locality(number) => fallible_write!(text, "locality {number}"),
        EventContent::Header(_) => text.fallible_push_str("header"),
        EventContent::LoaderText(said) => push_event(text, said),
        EventContent::CrtmVersion(version) => push_version(text, version),
        EventContent::Blob(blob) => {
            let address = HexNumber(blob.base);
            fallible_write!(text, "blob at {address}")
        }
        EventContent::DescribedBlob(described) => {
            text.fallible_push_str("blob ")?;
            push_bytes(text, described.description)
        }
        EventContent::Tagged(tagged) => push_tagged(text, tagged),
        EventContent::Gpt(gpt) => {
            let guid = gpt.header().disk_guid;
            fallible_write!(text, "disk {guid}")
        }
        EventContent::Variable(variable)
        | EventContent::BootOption(variable, _)
        | EventContent::BootOrder(variable, _)
        | EventContent::SignatureLists(variable, _)
        | EventContent::Signature(variable, _) => {
            text.fallible_push_str("variable ")?;
            push_units(text, &variable.name)
        }
        EventContent::Image(image, path) => push_image(text, image, path),
    }
}

/// Appends the first bytes of what is no text, and how many there are more.
pub(crate) fn push_bytes(text: &mut String, bytes: &[u8]) -> Result<(), AllocError> {
    let (first, rest) = bytes.split_at(SHOWN_LENGTH.min(bytes.len()));
    let first = ShownBytes(first);
    fallible_write!(text, "{first}")?;
    push_more(text, rest.len())
}

/// Appends how many characters, or bytes, a text has that aren't shown, if it has any.
pub(crate) fn push_more(text: &mut String, left: usize) -> Result<(), AllocError> {
    if left == 0 {
        return Ok(());
    }
    fallible_write!(text, "..({left} more)")
}

/// Appends the first characters of a text, and how many there are more.
fn push_text(text: &mut String, said: &str) -> Result<(), AllocError> {
    let characters = characters_of(said)?;
    let all = characters.as_slice();
    let (first, rest) = all.split_at(SHOWN_LENGTH.min(all.len()));
    for character in first {
        let mut room = [0; 4];
        let shown = ShownName(character.encode_utf8(&mut room));
        fallible_write!(text, "{shown}")?;
    }
    push_more(text, rest.len())
}

/// Returns the characters of a text.
fn characters_of(text: &str) -> Result<Vec<char>, AllocError> {
    text.chars().fallible_collect()
}

/// Appends the first units as text.
fn push_units(
    text: &mut String,
    units: &UnalignedSlice<'_>,
) -> Result<(), AllocError> {
    let said = name_text(units)?;
    push_text(text, said.as_str())
}

/// Appends the text of an event.
fn push_event(text: &mut String, said: &EventText<'_>) -> Result<(), AllocError> {
    match said {
        EventText::Utf8 { text: said, .. } => push_text(text, said),
        EventText::Utf16 { units, .. } => push_units(text, units),
        EventText::Other(bytes) => push_bytes(text, bytes),
    }
}

/// Appends a version.
fn push_version(
    text: &mut String,
    version: &CrtmVersion<'_>,
) -> Result<(), AllocError> {
    match version {
        CrtmVersion::Ucs2(units) => push_units(text, units),
        CrtmVersion::Guid(guid) => fallible_write!(text, "{guid}"),
        CrtmVersion::Other(said) => push_event(text, said),
    }
}

/// Appends the tag of the first tagged event.
fn push_tagged(text: &mut String, tagged: &TaggedData<'_>) -> Result<(), AllocError> {
    match tagged.iter().next() {
        Some(first) => {
            text.fallible_push_str("tag ")?;
            push_tag(text, first.id)
        }
        None => text.fallible_push_str("no tagged event"),
    }
}

/// Appends `image` and its device path, if it has one.
fn push_image(
    text: &mut String,
    image: &ImageLoadEvent<'_>,
    path: &Option<DevicePath<'_>>,
) -> Result<(), AllocError> {
    if image.device_path.is_empty() {
        return text.fallible_push_str("image");
    }
    text.fallible_push_str("image ")?;
    match path {
        Some(path) => {
            let path = path_text(*path);
            fallible_write!(text, "{path}")
        }
        None => push_hex(text, image.device_path),
    }
}

/// Appends the first bytes in hex, and how many there are more.
fn push_hex(text: &mut String, bytes: &[u8]) -> Result<(), AllocError> {
    let (first, rest) = bytes.split_at(SHOWN_LENGTH.min(bytes.len()));
    let first = Hex(first);
    fallible_write!(text, "{first}")?;
    push_more(text, rest.len())
}
