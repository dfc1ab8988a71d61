// @generated from proved source. It is not edited.

use crate::uefi_node::acpi::AdrList;
use crate::uefi_node::hardware::Pci;
use crate::uefi_node::media::{HardDrive, PartitionSignature};
use crate::uefi_node::messaging::DnsAddresses;
use crate::uefi_node::{DevicePathNodeExt, NodeConversionError};
use crate::uefi_path::DevicePathNode;

/// Returns why the node that the bytes are is no PCI device; or `None` if it is one.
pub(crate) fn pci(input: &[u8]) -> Option<NodeConversionError> {
    Pci::try_from(DevicePathNode::try_from(input).ok()?).err()
}

/// Returns why the node that the bytes are is no partition; or `None` if it is one.
pub(crate) fn hard_drive(input: &[u8]) -> Option<NodeConversionError> {
    HardDrive::try_from(DevicePathNode::try_from(input).ok()?).err()
}

/// The lengths of data that are tried are below this one.
const LENGTHS: u8 = 80;

/// Returns whether nodes of this type and subtype may have data of this length.
fn accepts(device_type: u8, sub_type: u8, length: u8) -> bool {
    let mut input = [0; 256];
    let node_length = length.saturating_add(4);
    input[..3].copy_from_slice(&[device_type, sub_type, node_length]);
    match DevicePathNode::try_from(&input[..usize::from(node_length)]) {
        Ok(node) => node.as_enum().err() != Some(NodeConversionError::Length),
        Err(_) => false,
    }
}

/// Returns whether a length is the least one, or is so by the next one.
fn is_expected(length: u8, least: u8, next: Option<u8>) -> bool {
    let after = length.checked_sub(least);
    match next {
        None => after == Some(0),
        Some(next) => after.and_then(|it| it.checked_rem(next.saturating_sub(least))) == Some(0),
    }
}

/// Returns the least length of the data of nodes of the type that two bytes are, and the next one;
/// or the first length that isn't accepted as these say.
pub(crate) fn lengths(input: &[u8]) -> Result<(u8, Option<u8>), Option<u8>> {
    let [device_type, sub_type] = input else {
        return Err(None);
    };
    let (device_type, sub_type) = (*device_type, *sub_type);
    let accepted = (0..LENGTHS).find(|it| accepts(device_type, sub_type, *it));
    let Some(least) = accepted else {
        return Err(None);
    };
    let after = least.saturating_add(1);
    let next = (after..LENGTHS).find(|it| accepts(device_type, sub_type, *it));
    let other = (0..LENGTHS).find(|it| accepts(device_type, sub_type, *it)
        != is_expected(*it, least, next));
    match other {
        Some(length) => Err(Some(length)),
        None => Ok((least, next)),
    }
}

/// Returns how many addresses the bytes are, the first three, and whether the list has the bytes.
pub(crate) fn adr_list(input: &[u8]) -> Option<(usize, [Option<u32>; 3], bool)> {
    let list = AdrList::new(input)?;
    let addresses = [list.get(0), list.get(1), list.get(2)];
    Some((list.count(), addresses, list.as_bytes() == input))
}

/// Returns how many addresses the bytes are, the first two, and whether the list has the bytes.
pub(crate) fn dns_addresses(input: &[u8]) -> Option<(usize, [Option<[u8; 16]>; 2], bool)> {
    let list = DnsAddresses::new(input)?;
    let addresses = [list.get(0), list.get(1)];
    Some((list.count(), addresses, list.as_bytes() == input))
}

/// Returns the type and the bytes of a signature.
fn type_and_bytes(input: &[u8]) -> Option<(u8, [u8; 16])> {
    let [signature_type, rest @ ..] = input else {
        return None;
    };
    let mut bytes = [0; 16];
    if rest.len() != bytes.len() {
        return None;
    }
    bytes.copy_from_slice(rest);
    Some((*signature_type, bytes))
}

/// Returns whether the type and the bytes of a signature make the same signature.
fn comes_back(signature: &PartitionSignature) -> bool {
    PartitionSignature::new(signature.signature_type(), signature.to_bytes()) == *signature
}

/// Returns the signature with a type and bytes, if it is valid and comes back from them.
pub(crate) fn signature(input: &[u8]) -> Result<PartitionSignature, &'static str> {
    let (signature_type, bytes) = type_and_bytes(input).ok_or("no type and bytes")?;
    let signature = PartitionSignature::new(signature_type, bytes);
    if !signature.is_valid() || !comes_back(&signature) {
        return Err("it isn't valid");
    }
    Ok(signature)
}

/// Returns whether a signature that is given as unknown is valid, and whether it comes back from
/// its type and bytes.
pub(crate) fn unknown_signature(input: &[u8]) -> Option<(bool, bool)> {
    let (signature_type, signature) = type_and_bytes(input)?;
    let unknown = PartitionSignature::Unknown {
        signature_type,
        signature,
    };
    Some((unknown.is_valid(), comes_back(&unknown)))
}
