// @generated from proved source. It is not edited.

//! Nodes of the type ACPI: devices that an ACPI object names (UEFI 2.10, 10.3.3).

pub use self::adr::Adr;
pub use self::adr_list::AdrList;
pub use self::device::Acpi;
pub use self::expanded::Expanded;
pub use self::nvdimm::Nvdimm;

mod adr;
mod adr_list;
mod device;
mod expanded;
mod nvdimm;
