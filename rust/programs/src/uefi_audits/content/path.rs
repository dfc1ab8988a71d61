// @generated from proved source. It is not edited.

use uefi_formats::proto::device_path::DevicePath;

/// Returns the device path that the bytes are; `None` if they are none, whole and alone.
pub(crate) fn whole_path(bytes: &[u8]) -> Option<DevicePath<'_>> {
    let Ok(path) = DevicePath::try_from(bytes) else {
        return None;
    };
    if path.as_bytes().len() != bytes.len() {
        return None;
    }
    Some(path)
}
