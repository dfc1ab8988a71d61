// @generated from proved source. It is not edited.

use crate::formats::uefi_path::load_option::DESCRIPTION_OFFSET;
use crate::formats::uefi_path::load_option_attributes::LoadOptionAttributes;
use crate::formats::uefi_path::load_option_description::LoadOptionDescription;
use crate::formats::uefi_path::path::DevicePath;

/// What a load option is written from: by [`write_load_option`](crate::formats::uefi_path::write_load_option),
/// [`LoadOption::new_in_buffer`](crate::formats::uefi_path::LoadOption::new_in_buffer) and
/// [`LoadOption::new_in_box`](crate::formats::uefi_path::LoadOption::new_in_box).
///
/// They are the parts of a load option if and only if
///
/// - the last unit of the description is zero, and no other is,
/// - the file path list starts with a device path, and
/// - the file path list has fewer than 65536 bytes.
///
/// [`LoadOption::parts`](crate::formats::uefi_path::LoadOption::parts) returns those of an option that was read.
#[derive(Clone, Copy)]
pub struct LoadOptionParts<'a> {
    /// The attributes.
    pub attributes: LoadOptionAttributes,
    /// The description, with its NUL.
    pub description: LoadOptionDescription<'a>,
    /// The bytes of the file path list: mostly those of one path, [`DevicePath::as_bytes`].
    pub file_path_list: &'a [u8],
    /// The data that the image is given.
    pub optional_data: &'a [u8],
}

impl core::fmt::Debug for LoadOptionParts<'_> {
    fn fmt(&self, f: &mut core::fmt::Formatter<'_>) -> core::fmt::Result {
        f.debug_struct("LoadOptionParts")
            .field("attributes", &self.attributes)
            .field("description", &self.description)
            .field("file_path_list", &crate::support::debug::Bytes(self.file_path_list))
            .field("optional_data", &crate::support::debug::Bytes(self.optional_data))
            .finish()
    }
}

impl<'a> LoadOptionParts<'a> {
    /// Returns whether some load option has these parts.
    #[inline]
    pub(crate) fn are_of_option(&self) -> bool {
        // The proof needs to know that the bits are those of a `u32`.
        let _bits = self.attributes.bits();
        if !self.description.ends_with_only_nul() {
            return false;
        }
        if self.file_path_list.len() > usize::from(u16::MAX) {
            return false;
        }
        DevicePath::try_from(self.file_path_list).is_ok()
    }

    /// Returns the length of the option with these parts in bytes, or `None` if `usize` has no such
    /// number.
    #[inline]
    pub(crate) fn size(&self) -> Option<usize> {
        let description = self.description.len().checked_mul(2)?;
        let before_list = description.checked_add(DESCRIPTION_OFFSET)?;
        let before_data = before_list.checked_add(self.file_path_list.len())?;
        before_data.checked_add(self.optional_data.len())
    }
}
