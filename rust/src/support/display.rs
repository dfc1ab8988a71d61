//! `Display` of device paths, their instances and nodes: their text, of which no node is shortened.

use crate::formats::uefi_path::{DevicePath, DevicePathInstance, DevicePathNode};
use crate::formats::uefi_path_text::{AllowShortcuts, DisplayOnly, instance_to_text, node_to_text, to_text};
use core::fmt::{self, Display, Formatter};

/// Writes the text of the path, such as `PciRoot(0x0)/Pci(0x2,0x0)`:
/// [`to_text`](crate::proto::device_path::text::to_text) with both flags false.
impl Display for DevicePath<'_> {
    fn fmt(&self, f: &mut Formatter<'_>) -> fmt::Result {
        to_text(*self, DisplayOnly(false), AllowShortcuts(false)).fmt(f)
    }
}

/// Writes the text of the instance, such as `PciRoot(0x0)/Pci(0x2,0x0)`:
/// [`instance_to_text`](crate::proto::device_path::text::instance_to_text) with both flags false.
impl Display for DevicePathInstance<'_> {
    fn fmt(&self, f: &mut Formatter<'_>) -> fmt::Result {
        instance_to_text(*self, DisplayOnly(false), AllowShortcuts(false)).fmt(f)
    }
}

/// Writes the text of the node, such as `Pci(0x2,0x0)`:
/// [`node_to_text`](crate::proto::device_path::text::node_to_text) with both flags false.
impl Display for DevicePathNode<'_> {
    fn fmt(&self, f: &mut Formatter<'_>) -> fmt::Result {
        node_to_text(*self, DisplayOnly(false), AllowShortcuts(false)).fmt(f)
    }
}

#[cfg(feature = "alloc")]
mod owned {
    use super::{Display, Formatter, fmt};
    use crate::formats::uefi_path::{BoxedDevicePath, BoxedDevicePathInstance};

    /// Writes the text of the path.
    impl Display for BoxedDevicePath {
        fn fmt(&self, f: &mut Formatter<'_>) -> fmt::Result {
            self.as_path().fmt(f)
        }
    }

    /// Writes the text of the instance.
    impl Display for BoxedDevicePathInstance {
        fn fmt(&self, f: &mut Formatter<'_>) -> fmt::Result {
            self.as_instance().fmt(f)
        }
    }
}
