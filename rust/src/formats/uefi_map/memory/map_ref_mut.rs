// @generated from proved source. It is not edited.

use super::map_error::MemoryMapError;
use super::memory_map::{MemoryMap, MemoryMapMut};
use super::meta::MemoryMapMeta;
use super::sizes::Sizes;

/// A memory map over a buffer that can be written.
///
/// It borrows the buffer, and allocates nothing.
pub struct MemoryMapRefMut<'a> {
    buffer: &'a mut [u8],
    sizes: Sizes,
}

impl<'a> MemoryMapRefMut<'a> {
    /// Returns the map that the buffer begins with.
    ///
    /// # Errors
    ///
    /// [`InvalidSize`](MemoryMapError::InvalidSize) exactly if the sizes make no map of the buffer
    /// ([`MemoryMapMeta::is_map_within`]). Every byte of the buffer then stays as it was.
    #[inline]
    pub fn new(
        buffer: &'a mut [u8],
        meta: MemoryMapMeta,
    ) -> Result<MemoryMapRefMut<'a>, MemoryMapError> {
        if is_map(buffer.len(), meta) {
            return MemoryMapRefMut::accepted(buffer, meta);
        }
        MemoryMapRefMut::refused()
    }

    /// Returns the map that the buffer is known to begin with.
    #[inline]
    fn accepted(
        buffer: &'a mut [u8],
        meta: MemoryMapMeta,
    ) -> Result<MemoryMapRefMut<'a>, MemoryMapError> {
        Ok(MemoryMapRefMut::over(buffer, meta))
    }

    /// Returns the error of sizes that make no map.
    #[inline]
    fn refused() -> Result<MemoryMapRefMut<'a>, MemoryMapError> {
        Err(MemoryMapError::InvalidSize)
    }

    /// Returns the map that the buffer begins with, for sizes that are known to make one, by
    /// [`MemoryMapMeta::is_map_within`].
    ///
    /// # Panics
    ///
    /// If the sizes make no map of the buffer.
    #[inline]
    pub fn over(buffer: &'a mut [u8], meta: MemoryMapMeta) -> MemoryMapRefMut<'a> {
        assert!(meta.is_map_within(buffer.len()));
        MemoryMapRefMut {
            buffer,
            sizes: Sizes::new(meta),
        }
    }
}

/// Returns whether the sizes make a map of a buffer with this length.
#[inline]
fn is_map(length: usize, meta: MemoryMapMeta) -> bool {
    meta.is_map_within(length)
}

impl<'a> MemoryMap for MemoryMapRefMut<'a> {
    #[inline]
    fn meta(&self) -> MemoryMapMeta {
        self.sizes.within(self.buffer.len())
    }

    #[inline]
    fn buffer(&self) -> &[u8] {
        self.buffer
    }
}

impl<'a> crate::support::sealed::Sealed for MemoryMapRefMut<'a> {}

impl<'a> MemoryMapMut for MemoryMapRefMut<'a> {
    #[inline]
    fn buffer_mut(&mut self) -> &mut [u8] {
        self.buffer
    }
}
