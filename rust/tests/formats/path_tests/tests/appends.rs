// @generated from proved source. It is not edited.

use crate::support::test::Fail;
use crate::test_support::samples::TWO_INSTANCES;
use crate::test_support::{bytes, same_bytes, takes_memory};
use crate::uefi_path::{DevicePath, DevicePathInstance, DevicePathNode};

/// Returns the first instance of the path that the bytes begin with.
fn first_instance<'a>(input: &'a [u8]) -> Option<DevicePathInstance<'a>> {
    DevicePath::try_from(input).ok()?.instance_iter().next()
}

/// Returns the lengths of what the appends give; or `None` if memory ran out.
fn appended_lengths(
    path: &DevicePath<'_>,
    other: &DevicePath<'_>,
    node: &DevicePathNode<'_>,
    instance: &DevicePathInstance<'_>,
) -> Option<(usize, usize, usize)> {
    let with_path = path.append_path(other).ok()?;
    let with_node = path.append_node(node).ok()?;
    let with_instance = path.append_instance(instance).ok()?;
    Some((
        with_path.as_path().as_bytes().len(),
        with_node.as_path().as_bytes().len(),
        with_instance.as_path().as_bytes().len(),
    ))
}

#[test]
fn an_append_fails_if_memory_was_refused() -> Result<(), Fail> {
    let input = bytes(TWO_INSTANCES)?;
    let path = DevicePath::try_from(input.as_slice())?;
    let other = DevicePath::try_from(input.as_slice())?;
    let instance = first_instance(input.as_slice()).ok_or("an instance")?;
    let node = instance.node_iter().next().ok_or("a node")?;
    takes_memory(&(68, 42, 54), || {
        appended_lengths(&path, &other, &node, &instance)
    })?;
    same_bytes("the path", path.as_bytes(), input.as_slice())
}
