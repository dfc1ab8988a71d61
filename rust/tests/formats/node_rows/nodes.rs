// @generated from proved source. It is not edited.

use crate::support::fallible::*;

use crate::node_rows::messaging::messaging;
use core::fmt;
use crate::test_support::bytes;
use crate::uefi_node::DevicePathNodeEnum::*;
use crate::uefi_node::media::FilePath;
use crate::uefi_node::{DevicePathNodeEnum, DevicePathNodeExt, NodeConversionError};
use crate::uefi_path::DevicePathNode;
use crate::uefi_path::build::{BuildError, BuildNode};

/// How many bytes of a buffer follow a node that is written into it.
const AFTER: usize = 3;

/// Returns the value that the node is, with the name of its type, or why it is none.
pub(crate) fn node(input: &str) -> Option<String> {
    let input = bytes(input).ok()?;
    let Ok(node) = DevicePathNode::try_from(input.as_slice()) else {
        return fallible_format!("no node").ok();
    };
    match node.as_enum() {
        Ok(value) => of_value(node, value),
        Err(error) => fallible_format!("{error:?}").ok(),
    }
}

/// Returns whether a value is written as these bytes into a larger buffer, whose other bytes stay.
fn is_written<N: BuildNode>(value: &N, node: &[u8]) -> Option<bool> {
    let mut buffer = Vec::fallible_from_elem(0xeeu8, node.len() + AFTER).ok()?;
    let written = value.write(buffer.as_mut_slice());
    let mut wanted = Vec::fallible_from_slice(node).ok()?;
    wanted.fallible_extend_from_slice(&[0xee; AFTER]).ok()?;
    Some(written == Ok(node.len()) && buffer.as_slice() == wanted.as_slice())
}

/// Returns whether a value isn't written into a buffer that is shorter than its node, of which each
/// byte stays.
fn needs<N: BuildNode>(value: &N, length: usize) -> Option<bool> {
    let mut buffer = Vec::fallible_from_elem(0xeeu8, length).ok()?;
    for _ in 0..length {
        let last = buffer.pop();
        let written = value.write(buffer.as_mut_slice());
        if last != Some(0xee) || written != Err(BuildError::BufferTooSmall(length)) {
            return Some(false);
        }
    }
    Some(true)
}

/// Returns what is wrong with a value of a node, if anything is: that its type reads another one,
/// or that it isn't written as the node.
pub(crate) fn fault_of<'a, 'b, T>(
    node: DevicePathNode<'a>,
    value: &T,
) -> Option<Result<(), &'b str>>
where
    T: TryFrom<DevicePathNode<'a>, Error = NodeConversionError> + BuildNode + PartialEq,
{
    let Ok(read) = T::try_from(node) else {
        return Some(Err("the type refuses the node"));
    };
    if read != *value {
        return Some(Err("the type reads another value"));
    }
    if !is_written(value, node.as_bytes())? {
        return Some(Err("it is not written as the node"));
    }
    if !needs(value, node.as_bytes().len())? {
        return Some(Err("it is written into a buffer that is too short"));
    }
    Some(Ok(()))
}

/// Returns a value with the name of its variant, or what is wrong with it.
pub(crate) fn shown<'a, T>(
    node: DevicePathNode<'a>,
    name: &str,
    value: &T,
) -> Option<String>
where
    T: TryFrom<DevicePathNode<'a>, Error = NodeConversionError>
        + BuildNode
        + PartialEq
        + fmt::Debug,
{
    match fault_of(node, value)? {
        Err(fault) => fallible_format!("{fault}").ok(),
        Ok(()) => fallible_format!("{name}({value:?})").ok(),
    }
}

/// Returns the path of a file, whose type has no `Debug`.
fn file_path<'a>(node: DevicePathNode<'a>, value: &FilePath<'a>) -> Option<String> {
    if let Err(fault) = fault_of(node, value)? {
        return fallible_format!("{fault}").ok();
    }
    let path_name = value.path_name.iter().fallible_collect::<Vec<u16>>().ok()?;
    fallible_format!("MediaFilePath(FilePath {{ path_name: {path_name:?} }})").ok()
}

/// Returns the value of a node, with the name of its variant.
fn of_value<'a>(
    node: DevicePathNode<'a>,
    value: DevicePathNodeEnum<'a>,
) -> Option<String> {
    match value {
        EndInstance(value) => shown(node, "EndInstance", &value),
        EndEntire(value) => shown(node, "EndEntire", &value),
        HardwarePci(value) => shown(node, "HardwarePci", &value),
        HardwarePccard(value) => shown(node, "HardwarePccard", &value),
        HardwareMemoryMapped(value) => shown(node, "HardwareMemoryMapped", &value),
        HardwareVendor(value) => shown(node, "HardwareVendor", &value),
        HardwareController(value) => shown(node, "HardwareController", &value),
        HardwareBmc(value) => shown(node, "HardwareBmc", &value),
        AcpiAcpi(value) => shown(node, "AcpiAcpi", &value),
        AcpiExpanded(value) => shown(node, "AcpiExpanded", &value),
        AcpiAdr(value) => shown(node, "AcpiAdr", &value),
        AcpiNvdimm(value) => shown(node, "AcpiNvdimm", &value),
        MediaHardDrive(value) => shown(node, "MediaHardDrive", &value),
        MediaCdRom(value) => shown(node, "MediaCdRom", &value),
        MediaVendor(value) => shown(node, "MediaVendor", &value),
        MediaFilePath(value) => file_path(node, &value),
        MediaProtocol(value) => shown(node, "MediaProtocol", &value),
        MediaPiwgFirmwareFile(value) => shown(node, "MediaPiwgFirmwareFile", &value),
        MediaPiwgFirmwareVolume(value) => shown(node, "MediaPiwgFirmwareVolume", &value),
        MediaRelativeOffsetRange(value) => shown(node, "MediaRelativeOffsetRange", &value),
        MediaRamDisk(value) => shown(node, "MediaRamDisk", &value),
        BiosBootSpecBootSpecification(value) => shown(
            node,
            "BiosBootSpecBootSpecification",
            &value,
        ),
        _ => messaging(node, value),
    }
}
