// @generated from proved source. It is not edited.

//! The GUIDs of the three records. Each is the constant of a type without a lifetime, from which the
//! record has it.

use crate::formats::uefi_base::{Guid, Identify};

/// The identity of a [`FileInfo`](crate::formats::uefi_records::FileInfo).
#[derive(Debug)]
pub struct FileInfoIdentity;

impl Identify for FileInfoIdentity {
    const GUID: Guid = Guid([
        0x92, 0x6e, 0x57, 0x09, 0x3f, 0x6d, 0xd2, 0x11, 0x8e, 0x39, 0x00, 0xa0, 0xc9, 0x69, 0x72,
        0x3b,
    ]);
}

/// The identity of a [`FileSystemInfo`](crate::formats::uefi_records::FileSystemInfo).
#[derive(Debug)]
pub struct FileSystemInfoIdentity;

impl Identify for FileSystemInfoIdentity {
    const GUID: Guid = Guid([
        0x93, 0x6e, 0x57, 0x09, 0x3f, 0x6d, 0xd2, 0x11, 0x8e, 0x39, 0x00, 0xa0, 0xc9, 0x69, 0x72,
        0x3b,
    ]);
}

/// The identity of a [`FileSystemVolumeLabel`](crate::formats::uefi_records::FileSystemVolumeLabel).
#[derive(Debug)]
pub struct FileSystemVolumeLabelIdentity;

impl Identify for FileSystemVolumeLabelIdentity {
    const GUID: Guid = Guid([
        0xd3, 0xd7, 0x47, 0xdb, 0x81, 0xfe, 0xd3, 0x11, 0x9a, 0x35, 0x00, 0x90, 0x27, 0x3f, 0xc1,
        0x4d,
    ]);
}
