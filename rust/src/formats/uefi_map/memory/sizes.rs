// @generated from proved source. It is not edited.

use super::meta::MemoryMapMeta;

/// The sizes of a map that was accepted, without its buffer.
///
/// A struct that lends its buffer as `&mut` can't keep a fact about the buffer's length beside it.
/// So it keeps these, and asks for the map's sizes by the buffer's length.
#[derive(Debug)]
pub(crate) struct Sizes {
    meta: MemoryMapMeta,
}

impl Sizes {
    /// Returns the sizes, which are whole strides.
    #[inline]
    pub(crate) fn new(meta: MemoryMapMeta) -> Sizes {
        Sizes { meta }
    }

    /// Returns the sizes of the map in a buffer with this length, or those of an empty map if the
    /// buffer is too short.
    #[inline]
    pub(crate) fn within(&self, length: usize) -> MemoryMapMeta {
        let map_size = if self.meta.map_size <= length {
            self.meta.map_size
        } else {
            0
        };
        MemoryMapMeta {
            map_size,
            ..self.meta
        }
    }
}
