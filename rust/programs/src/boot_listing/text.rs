// @generated from proved source. It is not edited.

//! What `text` lists of bytes, and what it refuses.

use crate::support::fallible::*;

use crate::boot_listing::Outcome;
use crate::boot_listing::command::Form;
use crate::boot_listing::json::JsonText;
use crate::boot_listing::refusal::push_refusal;
use crate::support::alloc::AllocError;
use uefi_formats::proto::device_path::{ByteConversionError, DevicePath, DevicePathInstance};
use uefi_formats::proto::device_path::text::{AllowShortcuts, DisplayOnly, instance_to_text};

/// Appends a device path as text: for each instance a line with its text, such as
/// `PciRoot(0x0)/Pci(0x1F,0x0)` (UEFI 2.10, 10.6.1). In JSON the texts are `paths` of an object.
///
/// The text has all of each node, and no form of a vendor.
///
/// # Errors
///
/// [`AllocError`] if an allocation fails. The text may have grown then.
pub fn push_path_text(
    text: &mut String,
    form: Form,
    path: &DevicePath<'_>,
) -> Result<(), AllocError> {
    match form {
        Form::Lines => push_text_lines(text, path),
        Form::Json => push_texts_object(text, path),
    }
}

/// Appends a line for each instance.
fn push_text_lines(
    text: &mut String,
    path: &DevicePath<'_>,
) -> Result<(), AllocError> {
    for instance in path.instance_iter() {
        push_instance_text(text, &instance)?;
    }
    Ok(())
}

/// Appends the line of an instance: its text.
fn push_instance_text(
    text: &mut String,
    instance: &DevicePathInstance<'_>,
) -> Result<(), AllocError> {
    let instance = instance_to_text(*instance, DisplayOnly(false), AllowShortcuts(false));
    fallible_writeln!(text, "{instance}")
}

/// Appends an object with the texts of the instances.
fn push_texts_object(
    text: &mut String,
    path: &DevicePath<'_>,
) -> Result<(), AllocError> {
    text.fallible_push_str("{\"paths\":[")?;
    push_text_strings(text, path)?;
    fallible_writeln!(text, "]}}")
}

/// Appends the texts of the instances as elements of an array.
fn push_text_strings(
    text: &mut String,
    path: &DevicePath<'_>,
) -> Result<(), AllocError> {
    let mut gap = "";
    for instance in path.instance_iter() {
        push_text_string(text, gap, &instance)?;
        gap = ",";
    }
    Ok(())
}

/// Appends the text of an instance as an element of an array, behind a gap.
fn push_text_string(
    text: &mut String,
    gap: &str,
    instance: &DevicePathInstance<'_>,
) -> Result<(), AllocError> {
    let instance = instance_to_text(*instance, DisplayOnly(false), AllowShortcuts(false));
    let mut characters = String::new();
    fallible_write!(characters, "{instance}")?;
    let instance = JsonText(characters.as_str());
    fallible_write!(text, "{gap}\"{instance}\"")
}

/// Appends the listing of the device path that is a prefix of the bytes, as text.
///
/// # Errors
///
/// [`AllocError`] if an allocation fails. The text may have grown then.
pub fn push_path_text_listing(
    text: &mut String,
    form: Form,
    bytes: &[u8],
) -> Result<Outcome, AllocError> {
    match DevicePath::try_from(bytes) {
        Ok(path) => {
            push_path_text(text, form, &path)?;
            Ok(Outcome::Listed)
        }
        Err(ByteConversionError::InvalidLength) => {
            push_refusal(text, form, "refused InvalidLength")?;
            Ok(Outcome::Refused)
        }
    }
}
