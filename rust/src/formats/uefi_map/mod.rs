// @generated from proved source. It is not edited.

//! Memory maps of UEFI firmware (UEFI 2.10, 7.2), whatever the stride of their descriptors, and
//! lists of PCI resources (UEFI 2.10, 14.2).
//!
//! For a map begin with [`MemoryMapRef::new`], which returns the map that the bytes begin with, or
//! fails for sizes that make none; [`MemoryMap::entries`] gives its descriptors in order.
//! [`MemoryMapRefMut`] and [`MemoryMapOwned`] can be written too, by [`MemoryMapMut`]: a write
//! changes the forty bytes of one descriptor. For a list of resources begin with
//! [`ResourceList::try_from`], which returns the list that the bytes begin with, or the one error
//! that they have, or with [`parse`], which collects it: of all calls this one allocates.

#[cfg(feature = "alloc")]
pub use self::memory::MemoryMapOwned;
pub use self::memory::{
    MemoryAttribute, MemoryDescriptor, MemoryMap, MemoryMapError, MemoryMapIter, MemoryMapKey,
    MemoryMapMeta, MemoryMapMut, MemoryMapRef, MemoryMapRefMut, MemoryType,
};
#[cfg(feature = "alloc")]
pub use self::pci::parse;
pub use self::pci::{
    QwordAddressSpaceDescriptor, ResourceError, ResourceIter, ResourceList, ResourceRangeType,
};

mod memory;
mod pci;
