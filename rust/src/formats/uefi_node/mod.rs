// @generated from proved source. It is not edited.

//! The nodes of UEFI device paths by their types, read and written (UEFI 2.10, 10.3.1 to 10.3.6).
//!
//! A node has a type, a subtype and data. Here each type of the standard is a struct with its
//! fields.
//!
//! Values are pushed to a `crate::formats::uefi_path::build::DevicePathBuilder`. Nothing allocates.

pub use self::error::NodeConversionError;
pub use self::node_enum::DevicePathNodeEnum;
pub(crate) use self::node_enum::DevicePathNodeExt;

pub mod acpi;
mod as_enum;
pub mod bios_boot_spec;
pub mod end;
mod error;
pub mod hardware;
pub mod media;
pub mod messaging;
mod node_enum;
mod read;
mod strings;
mod write;
