// @generated from proved source. It is not edited.

use crate::formats::uefi_node::error::NodeConversionError;
use crate::formats::uefi_node::read::{NodeKind, NodeValue, RestKind, read_node};
use crate::formats::uefi_node::write::{Tail, joined, write_node};
use crate::formats::uefi_base::little_endian::{u32_at, u64_at};
use crate::formats::uefi_path::build::{BuildError, BuildNode};
use crate::formats::uefi_path::{DevicePathNode, DeviceSubType, DeviceType};

/// A serial port (UEFI 2.10, 10.3.4.16).
///
/// | offset | bytes | field |
/// |---|---|---|
/// | 4 | 4 | `reserved` |
/// | 8 | 8 | `baud_rate` |
/// | 16 | 1 | `data_bits` |
/// | 17 | 1 | `parity` |
/// | 18 | 1 | `stop_bits` |
///
/// Offsets are from the start of the node. Numbers are little-endian.
#[derive(Clone, Copy, PartialEq, Eq, Debug)]
pub struct Uart {
    /// Reserved bytes, which are zero in the standard.
    pub reserved: u32,
    /// The bits a second, or 0 for the default.
    pub baud_rate: u64,
    /// The data bits, or 0 for the default.
    pub data_bits: u8,
    /// The parity.
    pub parity: Parity,
    /// The stop bits.
    pub stop_bits: StopBits,
}

/// The type of the nodes, and how long their data are.
const KIND: NodeKind = NodeKind {
    full_type: (DeviceType::MESSAGING, DeviceSubType::MESSAGING_UART),
    size: 15,
    rest: RestKind::Nothing,
};

impl<'a> TryFrom<DevicePathNode<'a>> for Uart {
    type Error = NodeConversionError;

    #[inline]
    fn try_from(node: DevicePathNode<'a>) -> Result<Uart, NodeConversionError> {
        read_node(&node, KIND)
    }
}

impl<'a> NodeValue<'a> for Uart {
    #[inline]
    fn from_data(data: &'a [u8]) -> Option<Uart> {
        Some(Uart {
            reserved: u32_at(data, 0),
            baud_rate: u64_at(data, 4),
            data_bits: data[12],
            parity: Parity(data[13]),
            stop_bits: StopBits(data[14]),
        })
    }
}

impl BuildNode for Uart {
    #[inline]
    fn full_type(&self) -> (DeviceType, DeviceSubType) {
        KIND.full_type
    }

    #[inline]
    fn write(&self, buffer: &mut [u8]) -> Result<usize, BuildError> {
        let fields = joined::<15>(&[
            &self.reserved.to_le_bytes(),
            &self.baud_rate.to_le_bytes(),
            &self.data_bits.to_le_bytes(),
            &self.parity.0.to_le_bytes(),
            &self.stop_bits.0.to_le_bytes(),
        ]);
        write_node(buffer, KIND, self, &fields, Tail::Bytes(&[]))
    }
}

/// The parity of a serial port (UEFI 2.10, 10.3.4.16).
///
/// Numbers without a constant here are valid too.
#[derive(Clone, Copy, PartialEq, Eq, PartialOrd, Ord, Hash, Debug)]
#[repr(transparent)]
pub struct Parity(pub u8);

impl Parity {
    /// The default.
    pub const DEFAULT: Parity = Parity(0);

    /// No parity bit.
    pub const NO: Parity = Parity(1);

    /// Even.
    pub const EVEN: Parity = Parity(2);

    /// Odd.
    pub const ODD: Parity = Parity(3);

    /// Always set.
    pub const MARK: Parity = Parity(4);

    /// Never set.
    pub const SPACE: Parity = Parity(5);
}

/// The stop bits of a serial port (UEFI 2.10, 10.3.4.16).
///
/// Numbers without a constant here are valid too.
#[derive(Clone, Copy, PartialEq, Eq, PartialOrd, Ord, Hash, Debug)]
#[repr(transparent)]
pub struct StopBits(pub u8);

impl StopBits {
    /// The default.
    pub const DEFAULT: StopBits = StopBits(0);

    /// One.
    pub const ONE: StopBits = StopBits(1);

    /// One and a half.
    pub const ONE_POINT_FIVE: StopBits = StopBits(2);

    /// Two.
    pub const TWO: StopBits = StopBits(3);
}
