// @generated from proved source. It is not edited.

#[cfg(feature = "alloc")]
use alloc::vec::Vec;
#[cfg(feature = "alloc")]
use crate::support::fallible::*;

#[cfg(feature = "alloc")]
use crate::formats::uefi_path::boxed_load_option::BoxedLoadOption;
use crate::formats::uefi_path::load_option_attributes::LoadOptionAttributes;
use crate::formats::uefi_path::load_option_description::LoadOptionDescription;
use crate::formats::uefi_path::load_option_error::LoadOptionError;
use crate::formats::uefi_path::load_option_parts::LoadOptionParts;
#[cfg(feature = "alloc")]
use crate::formats::uefi_path::load_option_writer::put_load_option;
use crate::formats::uefi_path::load_option_writer::write_load_option;
use crate::formats::uefi_path::path::DevicePath;
use crate::formats::uefi_base::little_endian::{split_u16, u16_at, u32_at};
#[cfg(feature = "alloc")]
use crate::formats::uefi_base::Status;
use crate::formats::uefi_base::{Error, UnalignedSlice};

// The offsets of the length of the file path list and of the description.
pub(crate) const LIST_LENGTH_OFFSET: usize = 4;

pub(crate) const DESCRIPTION_OFFSET: usize = 6;

/// A load option (UEFI 2.10, 3.1.3, `EFI_LOAD_OPTION`): the value of a variable such as `Boot0000`,
/// which says which image to load.
///
/// | offset | bytes | field |
/// |---|---|---|
/// | 0 | 4 | [`LoadOptionAttributes`], little-endian |
/// | 4 | 2 | length of the file path list in bytes, little-endian |
/// | 6 | 2 a unit | description, with its NUL |
/// | | that length | file path list: device paths, one after another |
/// | | the rest | optional data, which the image is given |
///
/// The first path of the list leads to the image. What follows it in the list is the operating
/// system's, and isn't read.
///
/// A view: what it returns lives as long as the bytes that it was read from or written to.
/// [`write_load_option`] writes an option from its [`parts`](LoadOption::parts).
#[derive(Clone, Copy)]
pub struct LoadOption<'a> {
    attributes: LoadOptionAttributes,
    description: UnalignedSlice<'a>,
    file_path: DevicePath<'a>,
    file_path_list: &'a [u8],
    optional_data: &'a [u8],
}

impl core::fmt::Debug for LoadOption<'_> {
    fn fmt(&self, f: &mut core::fmt::Formatter<'_>) -> core::fmt::Result {
        f.debug_struct("LoadOption")
            .field("attributes", &self.attributes)
            .field("description", &self.description)
            .field("file_path", &self.file_path)
            .field("file_path_list", &crate::support::debug::Bytes(self.file_path_list))
            .field("optional_data", &crate::support::debug::Bytes(self.optional_data))
            .finish()
    }
}

impl<'a> LoadOption<'a> {
    /// Writes the load option with these parts to the beginning of the buffer, and returns a view
    /// of it. The bytes that follow stay as they were.
    ///
    /// [`write_load_option`] does the same for a caller that goes on with the buffer.
    ///
    /// # Errors
    ///
    /// In each case all bytes of the buffer stay as they were.
    ///
    /// - [`INVALID_PARAMETER`](Status::INVALID_PARAMETER) with `None` if no load option has these
    ///   parts, whatever the buffer.
    /// - Else [`BUFFER_TOO_SMALL`](Status::BUFFER_TOO_SMALL) with the length of the option if the
    ///   buffer is shorter than that; with `None` if that length is no `usize`.
    #[inline]
    pub fn new_in_buffer(
        buffer: &'a mut [u8],
        parts: &LoadOptionParts<'_>,
    ) -> Result<LoadOption<'a>, Error<Option<usize>>> {
        let written = write_load_option(buffer, parts);
        LoadOption::from_written(buffer, written)
    }

    /// Returns the load option with these parts, in memory of its own.
    ///
    /// # Errors
    ///
    /// - [`INVALID_PARAMETER`](Status::INVALID_PARAMETER) if no load option has these parts; no
    ///   memory is asked for.
    /// - Else [`OUT_OF_RESOURCES`](Status::OUT_OF_RESOURCES) if an allocation fails, or if the
    ///   length of the option is no `usize`.
    #[cfg(feature = "alloc")]
    #[inline]
    pub fn new_in_box(
        parts: &LoadOptionParts<'_>,
    ) -> Result<BoxedLoadOption, Error<()>> {
        if !parts.are_of_option() {
            return Err(Error::new(Status::INVALID_PARAMETER, ()));
        }
        let Some(size) = parts.size() else {
            return Err(Error::new(Status::OUT_OF_RESOURCES, ()));
        };
        let Ok(mut bytes) = Vec::fallible_from_elem(0, size) else {
            return Err(Error::new(Status::OUT_OF_RESOURCES, ()));
        };
        put_load_option(bytes.as_mut_slice(), parts);
        Ok(BoxedLoadOption::new_unchecked(bytes))
    }

    /// Returns the load option that `bytes`, which are known to be one, encode.
    #[inline]
    pub(crate) fn new_unchecked(bytes: &'a [u8]) -> LoadOption<'a> {
        LoadOption::try_from(bytes).unwrap()
    }

    /// Returns the view of what was written, if it was.
    #[inline]
    fn from_written(
        bytes: &'a [u8],
        written: Result<usize, Error<Option<usize>>>,
    ) -> Result<LoadOption<'a>, Error<Option<usize>>> {
        let end = written?;
        Ok(LoadOption::new_unchecked(&bytes[..end]))
    }

    /// Returns the parts. The option that is written from them has the same bytes as this one.
    #[must_use]
    #[inline]
    pub fn parts(&self) -> LoadOptionParts<'a> {
        LoadOptionParts {
            attributes: self.attributes,
            description: LoadOptionDescription::Units(self.description),
            file_path_list: self.file_path_list,
            optional_data: self.optional_data,
        }
    }

    /// Returns the attributes: all bits, including those without a name.
    #[must_use]
    #[inline]
    pub fn attributes(&self) -> LoadOptionAttributes {
        self.attributes
    }

    /// Returns the units of the description: the last is zero, the NUL, and no other is.
    #[must_use]
    #[inline]
    pub fn description(&self) -> UnalignedSlice<'a> {
        self.description
    }

    /// Returns the device path that leads to the image: the first of the file path list.
    #[must_use]
    #[inline]
    pub fn file_path(&self) -> DevicePath<'a> {
        self.file_path
    }

    /// Returns the bytes of the file path list, which start with those of
    /// [`file_path`](LoadOption::file_path).
    #[must_use]
    #[inline]
    pub fn file_path_list(&self) -> &'a [u8] {
        self.file_path_list
    }

    /// Returns the data that the image is given.
    #[must_use]
    #[inline]
    pub fn optional_data(&self) -> &'a [u8] {
        self.optional_data
    }
}

/// Reads the load option that the bytes are.
///
/// # Errors
///
/// Fails exactly if the bytes are no load option, with the first of these errors that applies:
///
/// - [`TooShort`](LoadOptionError::TooShort) if there are fewer than six bytes.
/// - [`NotNulTerminated`](LoadOptionError::NotNulTerminated) if no unit of the description is zero.
/// - [`FilePathListTooLong`](LoadOptionError::FilePathListTooLong) if fewer bytes follow the
///   description than the file path list is stated to have.
/// - [`FilePath`](LoadOptionError::FilePath) if the file path list doesn't start with a device path.
impl<'a> TryFrom<&'a [u8]> for LoadOption<'a> {
    type Error = LoadOptionError;

    #[inline]
    fn try_from(bytes: &'a [u8]) -> Result<LoadOption<'a>, LoadOptionError> {
        if bytes.len() < DESCRIPTION_OFFSET {
            return Err(LoadOptionError::TooShort);
        }
        let (_, rest) = bytes.split_at(DESCRIPTION_OFFSET);
        let Some((description, rest)) = split_description(rest) else {
            return Err(LoadOptionError::NotNulTerminated);
        };
        let length = usize::from(u16_at(bytes, LIST_LENGTH_OFFSET));
        if rest.len() < length {
            return Err(LoadOptionError::FilePathListTooLong);
        }
        let (file_path_list, optional_data) = rest.split_at(length);
        let file_path = DevicePath::try_from(file_path_list)?;
        Ok(LoadOption {
            attributes: LoadOptionAttributes::from_bits_retain(u32_at(bytes, 0)),
            description,
            file_path,
            file_path_list,
            optional_data,
        })
    }
}

/// Returns the units of the description that the bytes begin with, with its NUL, and the bytes after
/// it; or `None` if no unit is zero.
#[inline]
fn split_description(bytes: &[u8]) -> Option<(UnalignedSlice<'_>, &[u8])> {
    let mut rest = bytes;
    while let Some((unit, after)) = split_u16(rest) {
        rest = after;
        if unit == 0 {
            let (description, _) = bytes.split_at_checked(bytes.len() - rest.len())?;
            return Some((UnalignedSlice::try_new(description)?, rest));
        }
    }
    None
}
