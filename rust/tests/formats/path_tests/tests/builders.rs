// @generated from proved source. It is not edited.

use crate::support::fallible::*;

use crate::support::test::Fail;
use crate::test_support::samples::{CON_OUT, TWO_INSTANCES};
use crate::test_support::{bytes, holds, same, same_bytes, takes_memory};
use crate::uefi_path::build::{BuildError, BuildNode, DevicePathBuilder, DevicePathVecBuilder};
use crate::uefi_path::{BoxedDevicePath, DevicePath, DeviceSubType, DeviceType};

/// Builds a path of the nodes of another one in the buffer.
fn build_in<'a>(buffer: &'a mut [u8], path: &DevicePath<'_>) -> Result<DevicePath<'a>, BuildError> {
    let mut builder = DevicePathBuilder::with_buf(buffer);
    for node in path.node_iter() {
        builder = builder.push(&node)?;
    }
    builder.finalize()
}

/// Builds a path of the nodes of another one in a vector.
fn build_boxed(
    path: &DevicePath<'_>,
) -> Result<BoxedDevicePath, BuildError> {
    let mut builder = DevicePathVecBuilder::new();
    for node in path.node_iter() {
        builder = builder.push(&node)?;
    }
    builder.finalize()
}

/// Returns the length of the path that is built in a vector; or `None` if memory ran out.
fn built_length(path: &DevicePath<'_>) -> Option<usize> {
    Some(build_boxed(path).ok()?.as_path().as_bytes().len())
}

#[test]
fn a_vector_has_the_path_or_memory_was_refused() -> Result<(), Fail> {
    let input = bytes(CON_OUT)?;
    let path = DevicePath::try_from(input.as_slice())?;
    takes_memory(&103, || built_length(&path))
}

/// Checks that a path that needs `needed` bytes for its next node isn't built in a buffer of fewer
/// bytes, of which the first `written` have the nodes before it, and the others stay.
fn stays_after(
    path: &DevicePath<'_>,
    size: usize,
    written: usize,
    needed: usize,
) -> Result<(), Fail> {
    let mut buffer = Vec::fallible_from_elem(0xeeu8, size)?;
    let refused = build_in(&mut buffer, path).err();
    same(
        "the error",
        &refused,
        &Some(BuildError::BufferTooSmall(needed)),
    )?;
    let mut front = buffer.iter().zip(path.as_bytes()).take(written);
    holds("the nodes", front.all(|pair| *pair.0 == *pair.1))?;
    let mut rest = buffer.iter().skip(written);
    holds("the other bytes", rest.all(|byte| *byte == 0xee))
}

/// The offsets at which the nodes of a path of two instances end.
const ENDS: [usize; 7] = [0, 6, 14, 18, 24, 32, 36];

#[test]
fn a_buffer_that_is_too_short_keeps_its_bytes() -> Result<(), Fail> {
    let input = bytes(TWO_INSTANCES)?;
    let path = DevicePath::try_from(input.as_slice())?;
    for (written, needed) in ENDS.iter().zip(ENDS.iter().skip(1)) {
        for size in *written..*needed {
            stays_after(&path, size, *written, *needed)?;
        }
    }
    Ok(())
}

/// A value that no node has.
#[derive(Debug)]
struct NoNode;

impl BuildNode for NoNode {
    fn full_type(&self) -> (DeviceType, DeviceSubType) {
        (DeviceType(1), DeviceSubType(1))
    }

    fn write(&self, _buffer: &mut [u8]) -> Result<usize, BuildError> {
        Err(BuildError::Form)
    }
}

#[test]
fn a_value_without_a_node_is_not_pushed() -> Result<(), Fail> {
    let input = bytes(TWO_INSTANCES)?;
    let path = DevicePath::try_from(input.as_slice())?;
    let node = path.node_iter().next().ok_or("a node")?;
    let mut buffer = Vec::fallible_from_elem(0xeeu8, 16)?;
    let mut builder = DevicePathBuilder::with_buf(&mut buffer);
    same("a node", &builder.push_node(&node), &Ok(()))?;
    same(
        "no node",
        &builder.push_node(&NoNode),
        &Err(BuildError::Form),
    )?;
    same("the end", &builder.write_end(), &Ok(10))?;
    let expected = bytes("a0b0 0600 0a0b  7fff 0400  eeee eeee eeee")?;
    same_bytes("the buffer", buffer.as_slice(), expected.as_slice())
}

#[test]
fn a_vector_without_a_node_for_a_value_keeps_its_nodes() -> Result<(), Fail> {
    let input = bytes(TWO_INSTANCES)?;
    let path = DevicePath::try_from(input.as_slice())?;
    let node = path.node_iter().next().ok_or("a node")?;
    let mut builder = DevicePathVecBuilder::new();
    same("a node", &builder.push_node(&node), &Ok(()))?;
    same(
        "no node",
        &builder.push_node(&NoNode),
        &Err(BuildError::Form),
    )?;
    let built = builder.finalize().ok().ok_or("a path")?;
    let expected = bytes("a0b0 0600 0a0b  7fff 0400")?;
    same_bytes("the path", built.as_path().as_bytes(), expected.as_slice())
}
