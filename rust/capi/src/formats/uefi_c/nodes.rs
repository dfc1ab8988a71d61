// @generated from proved source. It is not edited.

//! The nodes of device paths by their types (UEFI 2.10, 10.3), as plain structures.

mod acpi;
mod file_path;
mod hard_drive;
mod ipv4;
mod ipv6;
mod mac;
mod nvme;
mod pci;
mod sata;
mod typed;
mod uri;
mod usb;
mod vendor;
