// @generated from proved source. It is not edited.

//! UEFI device paths, read from bytes or built node by node (UEFI 2.10, chapter 10).
//!
//! A device path tells firmware how to reach a device or a file: a list of nodes, each of them one
//! step, that ends with an end-entire node. It consists of one or more instances, each of them a
//! way of its own.
//!
//! Begin with [`DevicePath::try_from`]: it returns the prefix of the bytes that is a path, and
//! fails exactly if no prefix is one. [`DevicePath::instance_iter`] and [`DevicePath::node_iter`]
//! then return the parts, each a view that lives as long as the source bytes. No view copies or
//! allocates anything.
//!
//! [`DevicePath::append_path`], [`DevicePath::append_node`] and [`DevicePath::append_instance`] copy
//! a path with more nodes, and [`build`] builds one node by node.
//!
//! [`LoadOption::try_from`] reads the value of a variable such as `Boot0000`, which has the path to
//! an image. [`write_load_option`] and [`LoadOption::new_in_box`] write one from its
//! [`LoadOptionParts`].

#[cfg(feature = "alloc")]
pub use self::boxed::{BoxedDevicePath, BoxedDevicePathInstance};
#[cfg(feature = "alloc")]
pub use self::boxed_load_option::BoxedLoadOption;
pub use self::device_type::{DeviceSubType, DeviceType};
pub use self::error::ByteConversionError;
pub use self::header::DevicePathHeader;
pub use self::instance::DevicePathInstance;
pub use self::instance_iter::DevicePathInstanceIterator;
pub use self::load_option::LoadOption;
pub use self::load_option_attributes::LoadOptionAttributes;
pub use self::load_option_description::LoadOptionDescription;
pub use self::load_option_error::LoadOptionError;
pub use self::load_option_parts::LoadOptionParts;
pub use self::load_option_writer::write_load_option;
pub use self::loaded_image::LoadedImageDevicePath;
pub use self::node::DevicePathNode;
pub use self::node_iter::DevicePathNodeIterator;
pub use self::path::DevicePath;

mod append;
mod boxed;
mod boxed_load_option;
pub mod build;
mod device_type;
mod error;
mod header;
mod instance;
mod instance_iter;
mod load_option;
mod load_option_attributes;
mod load_option_description;
mod load_option_error;
mod load_option_parts;
mod load_option_writer;
mod loaded_image;
mod node;
mod node_iter;
mod path;
mod walk;
