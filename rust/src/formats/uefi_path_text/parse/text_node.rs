// @generated from proved source. It is not edited.

//! A node of a path's text.

use crate::formats::uefi_path_text::parse::call::Call;
use crate::formats::uefi_path_text::parse::file_name::FileName;
use crate::formats::uefi_base::buffer::put;
use crate::formats::uefi_path::{DevicePathHeader, DeviceSubType, DeviceType};

/// The length of the header of a node in bytes.
const HEADER_LENGTH: usize = 4;

/// A node of a path's text.
#[derive(Clone, Copy, Debug)]
pub(crate) enum TextNode<'a> {
    /// `NAME(ARGUMENTS)`
    Call(Call<'a>),
    /// A file's name.
    FileName(FileName<'a>),
    /// A comma, the end of an instance.
    EndInstance,
}

impl TextNode<'_> {
    /// Returns the type and the subtype.
    #[inline]
    fn full_type(&self) -> (DeviceType, DeviceSubType) {
        match self {
            TextNode::Call(call) => call.full_type(),
            TextNode::FileName(_) => (DeviceType::MEDIA, DeviceSubType::MEDIA_FILE_PATH),
            TextNode::EndInstance => (DeviceType::END, DeviceSubType::END_INSTANCE),
        }
    }

    /// Returns the length of the data.
    #[inline]
    fn data_len(&self) -> usize {
        let size = match self {
            TextNode::Call(call) => call.data_len(),
            TextNode::FileName(name) => name.data_len(),
            TextNode::EndInstance => Some(0),
        };
        match size {
            Some(size) => size,
            None => unreachable!(),
        }
    }

    /// Writes the data at an offset.
    #[inline]
    fn put_data(&self, buffer: &mut [u8], offset: usize) {
        match self {
            TextNode::Call(call) => call.put_data(buffer, offset),
            TextNode::FileName(name) => name.put_data(buffer, offset),
            TextNode::EndInstance => {}
        }
    }

    /// Returns the length of the node in bytes.
    #[inline]
    pub(crate) fn size(&self) -> usize {
        HEADER_LENGTH + self.data_len()
    }

    /// Writes the node to the start of the buffer, and returns its length in bytes.
    #[inline]
    fn write(&self, buffer: &mut [u8]) -> usize {
        let size = self.size();
        let (device_type, sub_type) = self.full_type();
        let header = DevicePathHeader::new(device_type, sub_type, size as u16);
        put(buffer, 0, &header.to_bytes());
        self.put_data(buffer, HEADER_LENGTH);
        size
    }

    /// Writes the node at an offset, and returns the offset of its end.
    #[inline]
    pub(crate) fn put(&self, buffer: &mut [u8], offset: usize) -> usize {
        let (_, rest) = buffer.split_at_mut(offset);
        offset + self.write(rest)
    }

    /// Returns whether the node is an end-entire node.
    #[inline]
    pub(crate) fn is_end_entire(&self) -> bool {
        self.full_type() == (DeviceType::END, DeviceSubType::END_ENTIRE)
    }
}
