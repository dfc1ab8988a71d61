// @generated from proved source. It is not edited.

use crate::formats::uefi_node::read::bytes_at;
use crate::formats::uefi_base::Guid;

/// What identifies the partition table of a partition's drive, or the partition (UEFI 2.10,
/// 10.3.5.1).
///
/// | variant | signature type | signature, 16 bytes |
/// |---|---|---|
/// | `None` | 0 | zeros |
/// | `Mbr` | 1 | four bytes, and then zeros |
/// | `Guid` | 2 | a GUID |
/// | `Unknown` | any other type, or 0 or 1 with other bytes | any |
#[derive(Clone, Copy, PartialEq, Eq, Debug)]
pub enum PartitionSignature {
    /// No signature.
    None,
    /// The signature of a master boot record, from its offset 0x1b8.
    Mbr([u8; 4]),
    /// The GUID of the partition.
    Guid(Guid),
    /// A signature that the standard doesn't define.
    Unknown {
        /// The type of the signature.
        signature_type: u8,
        /// The signature.
        signature: [u8; 16],
    },
}

impl PartitionSignature {
    /// Returns the signature with this type and these bytes.
    #[must_use]
    #[inline]
    pub fn new(signature_type: u8, signature: [u8; 16]) -> PartitionSignature {
        if signature_type == 0 && are_zero(&signature) {
            return PartitionSignature::None;
        }
        if signature_type == 1 && are_zero(&signature[4..]) {
            return PartitionSignature::Mbr(bytes_at(&signature, 0));
        }
        if signature_type == 2 {
            return PartitionSignature::Guid(Guid(signature));
        }
        PartitionSignature::Unknown {
            signature_type,
            signature,
        }
    }

    /// Returns the type of the signature.
    #[must_use]
    #[inline]
    pub const fn signature_type(&self) -> u8 {
        match self {
            PartitionSignature::None => 0,
            PartitionSignature::Mbr(_) => 1,
            PartitionSignature::Guid(_) => 2,
            PartitionSignature::Unknown { signature_type, .. } => *signature_type,
        }
    }

    /// Returns the 16 bytes of the signature.
    #[must_use]
    #[inline]
    pub const fn to_bytes(&self) -> [u8; 16] {
        match self {
            PartitionSignature::None => [0; 16],
            PartitionSignature::Mbr([a, b, c, d]) => {
                [*a, *b, *c, *d, 0, 0, 0, 0, 0, 0, 0, 0, 0, 0, 0, 0]
            }
            PartitionSignature::Guid(guid) => guid.to_bytes(),
            PartitionSignature::Unknown { signature, .. } => *signature,
        }
    }

    /// Returns whether [`PartitionSignature::new`] returns this value for its type and bytes: an
    /// `Unknown` signature isn't one of the other variants.
    #[must_use]
    #[inline]
    pub fn is_valid(&self) -> bool {
        match self {
            PartitionSignature::Unknown {
                signature_type,
                signature,
            } => !is_defined(*signature_type, signature),
            _ => true,
        }
    }
}

/// Returns whether the standard defines a signature of this type and these bytes.
#[inline]
fn is_defined(signature_type: u8, signature: &[u8]) -> bool {
    let (_, after) = signature.split_at(4);
    match signature_type {
        0 => are_zero(signature),
        1 => are_zero(after),
        2 => true,
        _ => false,
    }
}

/// Returns whether all bytes are zero.
#[inline]
fn are_zero(bytes: &[u8]) -> bool {
    bytes.iter().all(|byte| *byte == 0)
}
