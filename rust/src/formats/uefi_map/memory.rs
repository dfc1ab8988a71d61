// @generated from proved source. It is not edited.

//! Memory maps: the values that they hold, how firmware describes them, and the maps themselves.

pub use self::descriptor::MemoryDescriptor;
pub use self::iter::MemoryMapIter;
pub use self::map_error::MemoryMapError;
#[cfg(feature = "alloc")]
pub use self::map_owned::MemoryMapOwned;
pub use self::map_ref::MemoryMapRef;
pub use self::map_ref_mut::MemoryMapRefMut;
pub use self::memory_attribute::MemoryAttribute;
pub use self::memory_map::{MemoryMap, MemoryMapMut};
pub use self::memory_type::MemoryType;
pub use self::meta::{MemoryMapKey, MemoryMapMeta};

// A descriptor, and where it and its fields are.
mod descriptor;
mod layout;
mod memory_attribute;
mod memory_type;

// What firmware says of a map, and the error of sizes that make none.
mod map_error;
mod meta;

// What all maps share.
mod iter;
mod memory_map;
mod sizes;

// The maps.
mod map_owned;
mod map_ref;
mod map_ref_mut;
