// @generated from proved source. It is not edited.

//! Nodes of the type HARDWARE: devices on a bus (UEFI 2.10, 10.3.2).

pub use self::bmc::{Bmc, BmcInterfaceType};
pub use self::controller::Controller;
pub use self::memory_mapped::MemoryMapped;
pub use self::pccard::Pccard;
pub use self::pci::Pci;
pub use self::vendor::Vendor;

mod bmc;
mod controller;
mod memory_mapped;
mod pccard;
mod pci;
mod vendor;
