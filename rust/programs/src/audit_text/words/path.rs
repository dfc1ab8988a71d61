// @generated from proved source. It is not edited.

use uefi_formats::proto::device_path::DevicePath;
use uefi_formats::proto::device_path::text::{AllowShortcuts, DisplayOnly, PathText, to_text};

/// Returns the text of a path: all of it, without shortcuts.
pub(crate) fn path_text(path: DevicePath<'_>) -> PathText<'_> {
    to_text(path, DisplayOnly(false), AllowShortcuts(false))
}
