//! Short `Debug`: of a view its length and how many items it has, of a text its first characters.

use crate::formats::pcr_replay::{PcrValue, Pcrs};
use crate::formats::uefi_base::{CStr16, UnalignedSlice};
use crate::formats::uefi_map::{MemoryMap, MemoryMapRef, MemoryMapRefMut};
use crate::formats::uefi_path::{DevicePath, DevicePathInstance, DevicePathNode};
use crate::formats::uefi_records::{FileInfo, FileSystemInfo, FileSystemVolumeLabel};
use crate::formats::uefi_tcg::{AlgorithmId, Log, v1, v2};
use core::fmt::{self, Debug, Formatter, Write};

pub(crate) use super::shown::{Bytes, SHOWN};

/// A text in quotation marks; of more than [`SHOWN`] characters the first, and two points.
struct Text<I>(I);

impl<I: Iterator<Item = char> + Clone> Debug for Text<I> {
    fn fmt(&self, f: &mut Formatter<'_>) -> fmt::Result {
        f.write_char('"')?;
        for character in self.0.clone().take(SHOWN).flat_map(char::escape_debug) {
            f.write_char(character)?;
        }
        f.write_str(if self.0.clone().nth(SHOWN).is_some() { "..\"" } else { "\"" })
    }
}

impl Debug for CStr16<'_> {
    fn fmt(&self, f: &mut Formatter<'_>) -> fmt::Result {
        let units = self.as_u16_with_nul().iter().take(self.num_chars()).copied();
        let characters = char::decode_utf16(units).map(|it| it.unwrap_or(char::REPLACEMENT_CHARACTER));
        f.debug_tuple("CStr16").field(&Text(characters)).finish()
    }
}

impl Debug for UnalignedSlice<'_> {
    fn fmt(&self, f: &mut Formatter<'_>) -> fmt::Result {
        f.debug_tuple("UnalignedSlice").field(&Text(self.chars_lossy())).finish()
    }
}

impl Debug for DevicePath<'_> {
    fn fmt(&self, f: &mut Formatter<'_>) -> fmt::Result {
        let (length, nodes) = (self.as_bytes().len(), self.node_iter().count());
        f.debug_struct("DevicePath").field("length", &length).field("nodes", &nodes).finish()
    }
}

impl Debug for DevicePathInstance<'_> {
    fn fmt(&self, f: &mut Formatter<'_>) -> fmt::Result {
        let (length, nodes) = (self.as_bytes().len(), self.node_iter().count());
        f.debug_struct("DevicePathInstance").field("length", &length).field("nodes", &nodes).finish()
    }
}

impl Debug for DevicePathNode<'_> {
    fn fmt(&self, f: &mut Formatter<'_>) -> fmt::Result {
        f.debug_struct("DevicePathNode")
            .field("device_type", &self.device_type())
            .field("sub_type", &self.sub_type())
            .field("data", &Bytes(self.data()))
            .finish()
    }
}

impl Debug for MemoryMapRef<'_> {
    fn fmt(&self, f: &mut Formatter<'_>) -> fmt::Result {
        let (meta, descriptors) = (self.meta(), self.entries().len());
        f.debug_struct("MemoryMapRef").field("meta", &meta).field("descriptors", &descriptors).finish()
    }
}

impl Debug for MemoryMapRefMut<'_> {
    fn fmt(&self, f: &mut Formatter<'_>) -> fmt::Result {
        let (meta, descriptors) = (self.meta(), self.entries().len());
        f.debug_struct("MemoryMapRefMut").field("meta", &meta).field("descriptors", &descriptors).finish()
    }
}

impl Debug for Log<'_> {
    fn fmt(&self, f: &mut Formatter<'_>) -> fmt::Result {
        f.debug_struct("Log")
            .field("version", &if self.header().is_some() { 2 } else { 1 })
            .field("length", &self.bytes.len())
            .field("last_entry", &self.last_entry)
            .field("events", &self.entries().count())
            .finish()
    }
}

impl Debug for v1::EventLog<'_> {
    fn fmt(&self, f: &mut Formatter<'_>) -> fmt::Result {
        let (events, is_truncated) = (self.iter().count(), self.is_truncated());
        f.debug_struct("EventLog").field("events", &events).field("is_truncated", &is_truncated).finish()
    }
}

impl Debug for v2::EventLog<'_> {
    fn fmt(&self, f: &mut Formatter<'_>) -> fmt::Result {
        let (events, is_truncated) = (self.iter_after_header_event().count(), self.is_truncated());
        f.debug_struct("EventLog").field("events", &events).field("is_truncated", &is_truncated).finish()
    }
}

impl Debug for v1::PcrEvent<'_> {
    fn fmt(&self, f: &mut Formatter<'_>) -> fmt::Result {
        f.debug_struct("PcrEvent")
            .field("pcr_index", &self.pcr_index())
            .field("event_type", &self.event_type())
            .field("digest", &Bytes(&self.digest()))
            .field("event_data", &Bytes(self.event_data()))
            .finish()
    }
}

impl Debug for v2::PcrEvent<'_> {
    fn fmt(&self, f: &mut Formatter<'_>) -> fmt::Result {
        f.debug_struct("PcrEvent")
            .field("pcr_index", &self.pcr_index())
            .field("event_type", &self.event_type())
            .field("digests", &self.digests())
            .field("event_data", &Bytes(self.event_data()))
            .finish()
    }
}

impl Debug for v2::PcrEventDigests<'_> {
    fn fmt(&self, f: &mut Formatter<'_>) -> fmt::Result {
        f.debug_map().entries(self.into_iter().map(|(algorithm, digest)| (algorithm, Bytes(digest)))).finish()
    }
}

impl Debug for v2::AlgorithmDigestSizes<'_> {
    fn fmt(&self, f: &mut Formatter<'_>) -> fmt::Result {
        let rows = self.rows().chunks_exact(4).map(|row| {
            (AlgorithmId(u16::from_le_bytes([row[0], row[1]])), u16::from_le_bytes([row[2], row[3]]))
        });
        f.debug_map().entries(rows).finish()
    }
}

impl Debug for PcrValue {
    fn fmt(&self, f: &mut Formatter<'_>) -> fmt::Result {
        f.debug_tuple("PcrValue").field(&Bytes(self.as_bytes())).finish()
    }
}

impl Debug for Pcrs {
    fn fmt(&self, f: &mut Formatter<'_>) -> fmt::Result {
        f.debug_map().entries(self.outcomes().iter().enumerate()).finish()
    }
}

impl Debug for FileInfo<'_> {
    fn fmt(&self, f: &mut Formatter<'_>) -> fmt::Result {
        f.debug_struct("FileInfo")
            .field("size", &self.size())
            .field("file_size", &self.file_size())
            .field("physical_size", &self.physical_size())
            .field("create_time", &self.create_time())
            .field("last_access_time", &self.last_access_time())
            .field("modification_time", &self.modification_time())
            .field("attribute", &self.attribute())
            .field("file_name", &self.file_name())
            .finish()
    }
}

impl Debug for FileSystemInfo<'_> {
    fn fmt(&self, f: &mut Formatter<'_>) -> fmt::Result {
        f.debug_struct("FileSystemInfo")
            .field("size", &self.size())
            .field("read_only", &self.read_only())
            .field("volume_size", &self.volume_size())
            .field("free_space", &self.free_space())
            .field("block_size", &self.block_size())
            .field("volume_label", &self.volume_label())
            .finish()
    }
}

impl Debug for FileSystemVolumeLabel<'_> {
    fn fmt(&self, f: &mut Formatter<'_>) -> fmt::Result {
        f.debug_struct("FileSystemVolumeLabel").field("volume_label", &self.volume_label()).finish()
    }
}

#[cfg(feature = "alloc")]
mod owned {
    use super::{Debug, Formatter, fmt};
    use crate::formats::pcr_replay::ReadLog;
    use crate::formats::uefi_base::CString16;
    use crate::formats::uefi_map::{MemoryMap, MemoryMapOwned};
    use crate::formats::uefi_path::{BoxedDevicePath, BoxedDevicePathInstance};
    use crate::formats::uefi_tcg::v1::BoxedPcrEvent;

    impl Debug for ReadLog<'_> {
        fn fmt(&self, f: &mut Formatter<'_>) -> fmt::Result {
            let (header, events) = (self.header(), self.entries().len());
            f.debug_struct("ReadLog").field("header", &header).field("events", &events).field("end", &self.end()).finish()
        }
    }

    impl Debug for CString16 {
        fn fmt(&self, f: &mut Formatter<'_>) -> fmt::Result {
            self.as_cstr16().fmt(f)
        }
    }

    impl Debug for BoxedDevicePath {
        fn fmt(&self, f: &mut Formatter<'_>) -> fmt::Result {
            self.as_path().fmt(f)
        }
    }

    impl Debug for BoxedDevicePathInstance {
        fn fmt(&self, f: &mut Formatter<'_>) -> fmt::Result {
            self.as_instance().fmt(f)
        }
    }

    impl Debug for BoxedPcrEvent {
        fn fmt(&self, f: &mut Formatter<'_>) -> fmt::Result {
            self.as_event().fmt(f)
        }
    }

    impl Debug for MemoryMapOwned {
        fn fmt(&self, f: &mut Formatter<'_>) -> fmt::Result {
            let (meta, descriptors) = (self.meta(), self.entries().len());
            f.debug_struct("MemoryMapOwned").field("meta", &meta).field("descriptors", &descriptors).finish()
        }
    }
}
