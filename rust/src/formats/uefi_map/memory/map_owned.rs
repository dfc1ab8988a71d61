// @generated from proved source. It is not edited.

#[cfg(feature = "alloc")]
use alloc::vec::Vec;

#[cfg(feature = "alloc")]
use super::map_error::MemoryMapError;
#[cfg(feature = "alloc")]
use super::memory_map::{MemoryMap, MemoryMapMut};
#[cfg(feature = "alloc")]
use super::meta::MemoryMapMeta;
#[cfg(feature = "alloc")]
use super::sizes::Sizes;

/// A memory map that owns its buffer, which is as long as the map.
#[cfg(feature = "alloc")]
pub struct MemoryMapOwned {
    buffer: Vec<u8>,
    sizes: Sizes,
}

#[cfg(feature = "alloc")]
impl MemoryMapOwned {
    /// Returns the map that the vector begins with. It drops the bytes after the map, and allocates
    /// nothing.
    ///
    /// # Errors
    ///
    /// [`InvalidSize`](MemoryMapError::InvalidSize), with the vector as it was, exactly if the
    /// sizes make no map of it ([`MemoryMapMeta::is_map_within`]).
    #[inline]
    pub fn from_initialized_mem(
        mut buffer: Vec<u8>,
        meta: MemoryMapMeta,
    ) -> Result<MemoryMapOwned, (MemoryMapError, Vec<u8>)> {
        if !meta.is_map_within(buffer.len()) {
            return Err((MemoryMapError::InvalidSize, buffer));
        }
        buffer.truncate(meta.map_size);
        Ok(MemoryMapOwned {
            buffer,
            sizes: Sizes::new(meta),
        })
    }
}

#[cfg(feature = "alloc")]
impl MemoryMap for MemoryMapOwned {
    #[inline]
    fn meta(&self) -> MemoryMapMeta {
        self.sizes.within(self.buffer.len())
    }

    #[inline]
    fn buffer(&self) -> &[u8] {
        self.buffer.as_slice()
    }
}

#[cfg(feature = "alloc")]
impl crate::support::sealed::Sealed for MemoryMapOwned {}

#[cfg(feature = "alloc")]
impl MemoryMapMut for MemoryMapOwned {
    #[inline]
    fn buffer_mut(&mut self) -> &mut [u8] {
        &mut self.buffer
    }
}
