// @generated from proved source. It is not edited.

use crate::support::test::Fail;
use crate::test_support::samples::TWO_INSTANCES;
use crate::test_support::{bytes, same, takes_memory};
use crate::uefi_path::{DevicePath, DevicePathInstance};

/// Returns whether the path in a box is the path, and its length; or `None` if memory ran out.
fn box_path(path: &DevicePath<'_>) -> Option<(bool, usize)> {
    let boxed = path.to_boxed().ok()?;
    Some((boxed.as_path() == *path, boxed.as_path().as_bytes().len()))
}

#[test]
fn a_box_has_the_path_or_memory_was_refused() -> Result<(), Fail> {
    let input = bytes(TWO_INSTANCES)?;
    let path = DevicePath::try_from(input.as_slice())?;
    takes_memory(&(true, 36), || box_path(&path))
}

#[test]
fn a_path_stays_as_it_is_boxed() -> Result<(), Fail> {
    let input = bytes(TWO_INSTANCES)?;
    let path = DevicePath::try_from(input.as_slice())?;
    let boxed = box_path(&path);
    same("the box", &boxed, &Some((true, 36)))?;
    let stays = (
        path.as_bytes() == input.as_slice(),
        path.node_iter().count(),
    );
    same("the path", &stays, &(true, 5))
}

/// Returns whether the instance in a box is the instance, and its length; or `None` if memory ran
/// out.
fn box_instance(
    instance: &DevicePathInstance<'_>,
) -> Option<(bool, usize)> {
    let boxed = instance.to_boxed().ok()?;
    Some((
        boxed.as_instance() == *instance,
        boxed.as_instance().as_bytes().len(),
    ))
}

/// Returns the first instance of the path that the bytes begin with.
fn first_instance<'a>(input: &'a [u8]) -> Option<DevicePathInstance<'a>> {
    DevicePath::try_from(input).ok()?.instance_iter().next()
}

#[test]
fn a_box_has_the_instance_or_memory_was_refused() -> Result<(), Fail> {
    let input = bytes(TWO_INSTANCES)?;
    let instance = first_instance(input.as_slice()).ok_or("an instance")?;
    takes_memory(
        &(true, 18),
        || box_instance(&instance),
    )
}

#[test]
fn an_instance_stays_as_it_is_boxed() -> Result<(), Fail> {
    let input = bytes(TWO_INSTANCES)?;
    let instance = first_instance(input.as_slice()).ok_or("an instance")?;
    let boxed = box_instance(&instance);
    same("the box", &boxed, &Some((true, 18)))?;
    let stays = (instance.as_bytes().len(), instance.node_iter().count());
    same("the instance", &stays, &(18, 2))
}
