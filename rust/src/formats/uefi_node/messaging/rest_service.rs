// @generated from proved source. It is not edited.

use crate::formats::uefi_node::error::NodeConversionError;
use crate::formats::uefi_node::read::{NodeKind, NodeValue, RestKind, bytes_at, read_node};
use crate::formats::uefi_node::write::{Tail, joined, write_node};
use crate::formats::uefi_base::Guid;
use crate::formats::uefi_path::build::{BuildError, BuildNode};
use crate::formats::uefi_path::{DevicePathNode, DeviceSubType, DeviceType};

/// A REST service (UEFI 2.10, 10.3.4.32).
///
/// | offset | bytes | field |
/// |---|---|---|
/// | 4 | 1 | `service_type` |
/// | 5 | 1 | `access_mode` |
/// | 6 | 16 | the GUID of `vendor_guid_and_data`, if the type is `VENDOR` |
/// | 22 | the rest | the data of `vendor_guid_and_data`, if the type is `VENDOR` |
///
/// Offsets are from the start of the node. Writing fails with [`BuildError::Form`] if a GUID and
/// data are there and the type isn't `VENDOR`, or the other way round.
#[derive(Clone, Copy, PartialEq, Eq, Debug)]
pub struct RestService<'a> {
    /// The type of the service.
    pub service_type: RestServiceType,
    /// How it is reached.
    pub access_mode: RestServiceAccessMode,
    /// The GUID and the data of the vendor: `Some` if and only if the type is `VENDOR`.
    pub vendor_guid_and_data: Option<(Guid, &'a [u8])>,
}

impl RestService<'_> {
    /// Returns whether a GUID and data are there if and only if the type is `VENDOR`.
    #[inline]
    fn is_valid(&self) -> bool {
        match self.vendor_guid_and_data {
            Some(_) => self.service_type == RestServiceType::VENDOR,
            None => self.service_type != RestServiceType::VENDOR,
        }
    }
}

/// The type of the nodes, and how long their data are.
const KIND: NodeKind = NodeKind {
    full_type: (DeviceType::MESSAGING, DeviceSubType::MESSAGING_REST_SERVICE),
    size: 2,
    rest: RestKind::Bytes,
};

impl<'a> TryFrom<DevicePathNode<'a>> for RestService<'a> {
    type Error = NodeConversionError;

    #[inline]
    fn try_from(node: DevicePathNode<'a>) -> Result<RestService<'a>, NodeConversionError> {
        read_node(&node, KIND)
    }
}

impl<'a> NodeValue<'a> for RestService<'a> {
    #[inline]
    fn from_data(data: &'a [u8]) -> Option<RestService<'a>> {
        let service_type = RestServiceType(data[0]);
        let access_mode = RestServiceAccessMode(data[1]);
        let (_, rest) = data.split_at(2);
        if service_type != RestServiceType::VENDOR {
            if !rest.is_empty() {
                return None;
            }
            return Some(RestService {
                service_type,
                access_mode,
                vendor_guid_and_data: None,
            });
        }
        if rest.len() < 16 {
            return None;
        }
        let (_, vendor_data) = rest.split_at(16);
        Some(RestService {
            service_type,
            access_mode,
            vendor_guid_and_data: Some((Guid(bytes_at(rest, 0)), vendor_data)),
        })
    }
}

impl BuildNode for RestService<'_> {
    #[inline]
    fn full_type(&self) -> (DeviceType, DeviceSubType) {
        KIND.full_type
    }

    #[inline]
    fn write(&self, buffer: &mut [u8]) -> Result<usize, BuildError> {
        if !self.is_valid() {
            return Err(BuildError::Form);
        }
        let fields = joined::<2>(&[
            &self.service_type.0.to_le_bytes(),
            &self.access_mode.0.to_le_bytes(),
        ]);
        match self.vendor_guid_and_data {
            None => write_node(buffer, KIND, self, &fields, Tail::Bytes(&[])),
            Some((guid, data)) => {
                let parts: [&[u8]; 2] = [&guid.to_bytes(), data];
                write_node(buffer, KIND, self, &fields, Tail::Parts(&parts))
            }
        }
    }
}

/// The type of a REST service (UEFI 2.10, 10.3.4.32).
///
/// Numbers without a constant here are valid too.
#[derive(Clone, Copy, PartialEq, Eq, PartialOrd, Ord, Hash, Debug)]
#[repr(transparent)]
pub struct RestServiceType(pub u8);

impl RestServiceType {
    /// Redfish.
    pub const REDFISH: RestServiceType = RestServiceType(1);

    /// OData.
    pub const ODATA: RestServiceType = RestServiceType(2);

    /// A service that its vendor describes.
    pub const VENDOR: RestServiceType = RestServiceType(0xff);
}

/// How a REST service is reached (UEFI 2.10, 10.3.4.32).
///
/// Numbers without a constant here are valid too.
#[derive(Clone, Copy, PartialEq, Eq, PartialOrd, Ord, Hash, Debug)]
#[repr(transparent)]
pub struct RestServiceAccessMode(pub u8);

impl RestServiceAccessMode {
    /// In-band.
    pub const IN_BAND: RestServiceAccessMode = RestServiceAccessMode(1);

    /// Out-of-band.
    pub const OUT_OF_BAND: RestServiceAccessMode = RestServiceAccessMode(2);
}
