// @generated from proved source. It is not edited.

//! Nodes of the type MEDIA: parts of a medium (UEFI 2.10, 10.3.5).

pub use self::cd_rom::CdRom;
pub use self::file_path::FilePath;
pub use self::hard_drive::{HardDrive, PartitionFormat};
pub use self::partition_signature::PartitionSignature;
pub use self::piwg_firmware_file::PiwgFirmwareFile;
pub use self::piwg_firmware_volume::PiwgFirmwareVolume;
pub use self::protocol::Protocol;
pub use self::ram_disk::RamDisk;
pub use self::ram_disk_type::RamDiskType;
pub use self::relative_offset_range::RelativeOffsetRange;
pub use self::vendor::Vendor;

mod cd_rom;
pub(crate) mod file_path;
mod hard_drive;
pub(crate) mod partition_signature;
mod piwg_firmware_file;
mod piwg_firmware_volume;
mod protocol;
mod ram_disk;
mod ram_disk_type;
mod relative_offset_range;
mod vendor;
