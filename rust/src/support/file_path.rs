//! The node of a file's path, to build from a text. `UnalignedSlice`, which the node that is read has, borrows bytes: a
//! text has units.

use crate::formats::uefi_base::CStr16;
use crate::formats::uefi_path::build::{BuildError, BuildNode};
use crate::formats::uefi_path::{DevicePathHeader, DeviceSubType, DeviceType};

const FULL_TYPE: (DeviceType, DeviceSubType) = (DeviceType::MEDIA, DeviceSubType::MEDIA_FILE_PATH);
const HEADER_LENGTH: usize = 4;

/// The path of a file to build from a text (UEFI 2.10, 10.3.5.4).
///
/// [`media::FilePath`](crate::proto::device_path::media::FilePath) is the node that is read. It has
/// any units.
///
/// # Examples
///
/// ```
/// use uefi_formats::cstr16;
/// use uefi_formats::proto::device_path::build::{DevicePathBuilder, media::FilePath};
///
/// let mut buffer = [0; 64];
/// let path_name = cstr16!("\\EFI\\BOOT\\BOOTX64.EFI");
/// let path = DevicePathBuilder::with_buf(&mut buffer).push(&FilePath { path_name })?.finalize()?;
/// assert_eq!(path.to_string(), "\\EFI\\BOOT\\BOOTX64.EFI");
/// # Ok::<(), uefi_formats::proto::device_path::build::BuildError>(())
/// ```
#[derive(Clone, Copy, PartialEq, Eq, Debug)]
pub struct FilePath<'a> {
    /// The path. The node has all its units, with the NUL.
    pub path_name: CStr16<'a>,
}

impl<'a> From<CStr16<'a>> for FilePath<'a> {
    fn from(path_name: CStr16<'a>) -> FilePath<'a> {
        FilePath { path_name }
    }
}

impl BuildNode for FilePath<'_> {
    fn full_type(&self) -> (DeviceType, DeviceSubType) {
        FULL_TYPE
    }

    fn write(&self, buffer: &mut [u8]) -> Result<usize, BuildError> {
        let units = self.path_name.as_u16_with_nul();
        let stated = units.len().checked_mul(2).and_then(|it| u16::try_from(it.checked_add(HEADER_LENGTH)?).ok());
        let length = stated.ok_or(BuildError::NodeTooBig)?;
        let Some(node) = buffer.get_mut(..length.into()) else {
            return Err(BuildError::BufferTooSmall(length.into()));
        };
        let (header, data) = node.split_at_mut(HEADER_LENGTH);
        header.copy_from_slice(&DevicePathHeader::new(FULL_TYPE.0, FULL_TYPE.1, length).to_bytes());
        for (bytes, unit) in data.chunks_exact_mut(2).zip(units) {
            bytes.copy_from_slice(&unit.to_le_bytes());
        }
        Ok(length.into())
    }
}
