// @generated from proved source. It is not edited.

//! Device paths that are built node by node (UEFI 2.10, 10.2).
//!
//! What can be put into a path is a [`BuildNode`]: a [`DevicePathNode`](crate::formats::uefi_path::DevicePathNode) that
//! was read, or a value of a type of nodes.

pub use self::builder::DevicePathBuilder;
pub use self::error::BuildError;
pub use self::node::BuildNode;
#[cfg(feature = "alloc")]
pub use self::vec_builder::DevicePathVecBuilder;

mod builder;
mod error;
mod node;
mod vec_builder;
