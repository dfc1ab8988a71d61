// @generated from proved source. It is not edited.

use crate::formats::uefi_base::Guid;

/// The type of a RAM disk (UEFI 2.10, 10.3.5.9), a GUID of ACPI 6.0, 5.2.25.2.
///
/// GUIDs without a constant here are valid too.
#[derive(Clone, Copy, PartialEq, Eq, Debug)]
#[repr(transparent)]
pub struct RamDiskType(pub Guid);

impl RamDiskType {
    /// A raw disk, which is lost when the system restarts. `77ab535a-45fc-624b-5560-f7b281d1f96e`.
    pub const VIRTUAL_DISK: RamDiskType = RamDiskType(Guid([
        0x5a, 0x53, 0xab, 0x77, 0xfc, 0x45, 0x4b, 0x62, 0x55, 0x60, 0xf7, 0xb2, 0x81, 0xd1, 0xf9,
        0x6e,
    ]));

    /// An ISO image, which is lost when the system restarts. `3d5abd30-4175-87ce-6d64-d2ade523c4bb`.
    pub const VIRTUAL_CD: RamDiskType = RamDiskType(Guid([
        0x30, 0xbd, 0x5a, 0x3d, 0x75, 0x41, 0xce, 0x87, 0x6d, 0x64, 0xd2, 0xad, 0xe5, 0x23, 0xc4,
        0xbb,
    ]));

    /// A raw disk in persistent memory. `5cea02c9-4d07-69d3-269f-4496fbe096f9`.
    pub const PERSISTENT_VIRTUAL_DISK: RamDiskType = RamDiskType(Guid([
        0xc9, 0x02, 0xea, 0x5c, 0x07, 0x4d, 0xd3, 0x69, 0x26, 0x9f, 0x44, 0x96, 0xfb, 0xe0, 0x96,
        0xf9,
    ]));

    /// An ISO image in persistent memory. `08018188-42cd-bb48-100f-5387d53ded3d`.
    pub const PERSISTENT_VIRTUAL_CD: RamDiskType = RamDiskType(Guid([
        0x88, 0x81, 0x01, 0x08, 0xcd, 0x42, 0x48, 0xbb, 0x10, 0x0f, 0x53, 0x87, 0xd5, 0x3d, 0xed,
        0x3d,
    ]));
}
