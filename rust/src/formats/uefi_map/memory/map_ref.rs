// @generated from proved source. It is not edited.

use super::map_error::MemoryMapError;
use super::memory_map::MemoryMap;
use super::meta::MemoryMapMeta;

/// A memory map over a buffer that is only read.
///
/// A view: it borrows the buffer, and allocates nothing.
///
/// # Examples
///
/// ```
/// use uefi_formats::mem::memory_map::{MemoryMap, MemoryMapMeta, MemoryMapRef};
///
/// /// Returns the count of pages in a buffer of firmware's, or `None` if it has no map or the sum
/// /// doesn't fit.
/// fn pages_in(buffer: &[u8], meta: MemoryMapMeta) -> Option<u64> {
///     let map = MemoryMapRef::new(buffer, meta).ok()?;
///     map.entries().try_fold(0u64, |pages, entry| pages.checked_add(entry.page_count))
/// }
///
/// let mut buffer = [0; 96];
/// buffer[24] = 2;
/// buffer[48 + 24] = 3;
/// assert_eq!(pages_in(&buffer, MemoryMapMeta::of(96, 48)), Some(5));
/// assert_eq!(pages_in(&buffer, MemoryMapMeta::of(96, 40)), None, "40 doesn't divide 96");
/// ```
#[derive(Clone, Copy)]
pub struct MemoryMapRef<'a> {
    buffer: &'a [u8],
    meta: MemoryMapMeta,
}

impl<'a> MemoryMapRef<'a> {
    /// Returns the map that the buffer begins with.
    ///
    /// # Errors
    ///
    /// [`InvalidSize`](MemoryMapError::InvalidSize) exactly if the sizes make no map of the buffer
    /// ([`MemoryMapMeta::is_map_within`]): if the stride is below 40 bytes, is no multiple of 8, or
    /// doesn't divide the map's length, or if this is above the buffer's.
    #[inline]
    pub fn new(buffer: &'a [u8], meta: MemoryMapMeta) -> Result<MemoryMapRef<'a>, MemoryMapError> {
        if !meta.is_map_within(buffer.len()) {
            return Err(MemoryMapError::InvalidSize);
        }
        Ok(MemoryMapRef { buffer, meta })
    }
}

impl<'a> MemoryMap for MemoryMapRef<'a> {
    #[inline]
    fn meta(&self) -> MemoryMapMeta {
        self.meta
    }

    #[inline]
    fn buffer(&self) -> &[u8] {
        self.buffer
    }
}

impl<'a> crate::support::sealed::Sealed for MemoryMapRef<'a> {}
