//! The bytes of units, and `AsRef<[u8]>` of each type with `as_bytes`.

use crate::formats::pcr_replay::PcrValue;
use crate::formats::tcg_event::SignatureLists;
use crate::formats::uefi_base::UnalignedSlice;
use crate::formats::uefi_node::acpi::AdrList;
use crate::formats::uefi_node::messaging::DnsAddresses;
#[cfg(feature = "alloc")]
use crate::formats::uefi_path::BoxedLoadOption;
use crate::formats::uefi_path::{DevicePath, DevicePathInstance, DevicePathNode};
use crate::formats::uefi_tcg::{v1, v2};

impl<'a> UnalignedSlice<'a> {
    /// Returns the bytes of the units, two bytes a unit, little-endian.
    #[must_use]
    #[inline]
    pub fn as_bytes(&self) -> &'a [u8] {
        self.bytes
    }
}

/// Implements `AsRef<[u8]>` by `as_bytes`.
macro_rules! as_bytes {
    ($($of:ty),*) => {$(
        impl AsRef<[u8]> for $of {
            #[inline]
            fn as_ref(&self) -> &[u8] {
                self.as_bytes()
            }
        }
    )*};
}

as_bytes!(AdrList<'_>, DnsAddresses<'_>, PcrValue, SignatureLists<'_>, UnalignedSlice<'_>);
as_bytes!(DevicePath<'_>, DevicePathInstance<'_>, DevicePathNode<'_>);
as_bytes!(v1::PcrEvent<'_>, v2::PcrEvent<'_>, v2::PcrEventDigests<'_>, v2::PcrEventInputs<'_>);
#[cfg(feature = "alloc")]
as_bytes!(BoxedLoadOption);
