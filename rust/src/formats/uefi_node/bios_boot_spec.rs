// @generated from proved source. It is not edited.

//! Nodes of the type BIOS_BOOT_SPEC: boot devices of the BIOS Boot Specification (UEFI 2.10,
//! 10.3.6).

pub use self::boot_specification::{BootSpecification, BootSpecificationDeviceType};

mod boot_specification;
