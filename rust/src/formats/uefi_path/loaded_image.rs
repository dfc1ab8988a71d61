// @generated from proved source. It is not edited.

use crate::formats::uefi_path::path::DevicePath;

/// The device path of a loaded image, which says where the image was loaded from (UEFI 2.10, 9.2
/// `EFI_LOADED_IMAGE_DEVICE_PATH_PROTOCOL`).
#[derive(Clone, Copy, Debug)]
#[repr(transparent)]
pub struct LoadedImageDevicePath<'a>(DevicePath<'a>);

impl<'a> LoadedImageDevicePath<'a> {
    /// Returns `path` as the device path of a loaded image.
    #[must_use]
    #[inline]
    pub fn new(path: DevicePath<'a>) -> LoadedImageDevicePath<'a> {
        LoadedImageDevicePath(path)
    }

    /// Returns the device path.
    #[must_use]
    #[inline]
    pub fn device_path(&self) -> DevicePath<'a> {
        self.0
    }
}
