// @generated from proved source. It is not edited.

//! What `list` prints of a folder of variables.

use crate::support::fallible::*;

use crate::boot_listing::Outcome;
use crate::boot_listing::command::Form;
use crate::boot_listing::option::{fault_of, push_load_option_members};
use crate::boot_listing::refusal::push_refusal;
use crate::boot_listing::variables::{
    BootVariable, BootVariables, Found, VariableFile, boot_current, boot_order, value_of,
};
use crate::shown::{Hex, HexNumber, ShownName, gap_before};
use crate::support::alloc::AllocError;
use uefi_formats::UnalignedSlice;
use uefi_formats::proto::device_path::{LoadOption, LoadOptionAttributes};
use uefi_formats::proto::device_path::text::{AllowShortcuts, DisplayOnly, to_text};

/// Returns the lines of the boot manager's variables among the files of a folder: `BootCurrent` and
/// `BootOrder`, if they are there, each with the names of boot options; then the boot options, those
/// of `BootOrder` first, in its order, then the others by their numbers.
///
/// A boot option has a line with its name and `active` or `inactive`, and four below it: `attributes`
/// with `0x` and the bits in hex, `description` as [`ShownName`] displays it, `path` with the text of
/// the path to the image (UEFI 2.10, 10.6.1), and `data` with the optional data in hex.
///
/// A variable that can't be told has one line, its name and the fault: `missing` if `BootOrder` names
/// it and there is no file; `twice` if there are two, one with the GUID behind its name; `refused`
/// and the error if the file isn't what the variable is.
///
/// In JSON each variable is an object with its `name`, and `option`, `options`, the members for a boot
/// option, or `fault`. Those are `active`, `attributes` as a number, `description`, `path` and `data`.
///
/// Files of which none is a variable of the boot manager are refused.
///
/// # Errors
///
/// [`AllocError`] if an allocation fails.
pub fn folder_listing(
    form: Form,
    files: &[VariableFile],
) -> Result<(String, Outcome), AllocError> {
    let mut text = String::new();
    push_variables(&mut text, form, files)?;
    if text.is_empty() {
        push_refusal(&mut text, form, "refused NoBootVariable")?;
        return Ok((text, Outcome::Refused));
    }
    Ok((text, Outcome::Listed))
}

/// Appends the lines of the boot manager's variables.
fn push_variables(
    text: &mut String,
    form: Form,
    files: &[VariableFile],
) -> Result<(), AllocError> {
    let found = BootVariables::find(files)?;
    push_current(text, form, found.current)?;
    push_order(text, form, found.order)?;
    push_options(text, form, &found)
}

/// Appends the line of `BootCurrent`, if it is there.
fn push_current(
    text: &mut String,
    form: Form,
    found: Found<'_>,
) -> Result<(), AllocError> {
    match found {
        Found::Nothing => Ok(()),
        Found::Once(bytes) => push_current_value(text, form, bytes),
        Found::Twice => push_fault(text, form, BootVariable::BootCurrent, "twice"),
    }
}

/// Appends the line of `BootCurrent`, which is the number of a boot option.
fn push_current_value(
    text: &mut String,
    form: Form,
    bytes: &[u8],
) -> Result<(), AllocError> {
    let Some(value) = value_of(bytes) else {
        return push_fault(
            text,
            form,
            BootVariable::BootCurrent,
            "refused NoAttributes",
        );
    };
    let Some(number) = boot_current(value) else {
        return push_fault(
            text,
            form,
            BootVariable::BootCurrent,
            "refused InvalidLength",
        );
    };
    push_current_option(text, form, number)
}

/// Appends what `BootCurrent` is: the name of a boot option.
fn push_current_option(
    text: &mut String,
    form: Form,
    number: u16,
) -> Result<(), AllocError> {
    let option = BootVariable::BootOption(number);
    match form {
        Form::Lines => fallible_writeln!(text, "BootCurrent {option}"),
        Form::Json => fallible_writeln!(text, "{{\"name\":\"BootCurrent\",\"option\":\"{option}\"}}"),
    }
}

/// Appends the line of `BootOrder`, if it is there.
fn push_order(
    text: &mut String,
    form: Form,
    found: Found<'_>,
) -> Result<(), AllocError> {
    match found {
        Found::Nothing => Ok(()),
        Found::Once(bytes) => push_order_value(text, form, bytes),
        Found::Twice => push_fault(text, form, BootVariable::BootOrder, "twice"),
    }
}

/// Appends the line of `BootOrder`, which has the numbers of boot options.
fn push_order_value(
    text: &mut String,
    form: Form,
    bytes: &[u8],
) -> Result<(), AllocError> {
    let Some(value) = value_of(bytes) else {
        return push_fault(text, form, BootVariable::BootOrder, "refused NoAttributes");
    };
    let Some(numbers) = boot_order(value) else {
        return push_fault(text, form, BootVariable::BootOrder, "refused InvalidLength");
    };
    push_order_options(text, form, numbers)
}

/// Appends what `BootOrder` is: the names of boot options.
fn push_order_options(
    text: &mut String,
    form: Form,
    numbers: UnalignedSlice<'_>,
) -> Result<(), AllocError> {
    match form {
        Form::Lines => push_order_names(text, numbers),
        Form::Json => push_order_object(text, numbers),
    }
}

/// Appends a line with the names of boot options.
fn push_order_names(
    text: &mut String,
    numbers: UnalignedSlice<'_>,
) -> Result<(), AllocError> {
    text.fallible_push_str("BootOrder")?;
    push_names(text, numbers)?;
    text.fallible_push_str("\n")
}

/// Appends the names of boot options, each behind a space.
fn push_names(
    text: &mut String,
    numbers: UnalignedSlice<'_>,
) -> Result<(), AllocError> {
    for number in numbers.iter() {
        push_name(text, number)?;
    }
    Ok(())
}

/// Appends the name of a boot option behind a space.
fn push_name(text: &mut String, number: u16) -> Result<(), AllocError> {
    let option = BootVariable::BootOption(number);
    fallible_write!(text, " {option}")
}

/// Appends an object with the names of boot options.
fn push_order_object(
    text: &mut String,
    numbers: UnalignedSlice<'_>,
) -> Result<(), AllocError> {
    text.fallible_push_str("{\"name\":\"BootOrder\",\"options\":[")?;
    push_name_strings(text, numbers)?;
    fallible_writeln!(text, "]}}")
}

/// Appends the names of boot options as elements of an array.
fn push_name_strings(
    text: &mut String,
    numbers: UnalignedSlice<'_>,
) -> Result<(), AllocError> {
    let mut gap = "";
    for number in numbers.iter() {
        push_name_string(text, gap, number)?;
        gap = ",";
    }
    Ok(())
}

/// Appends the name of a boot option as an element of an array, behind a gap.
fn push_name_string(
    text: &mut String,
    gap: &str,
    number: u16,
) -> Result<(), AllocError> {
    let option = BootVariable::BootOption(number);
    fallible_write!(text, "{gap}\"{option}\"")
}

/// Appends the texts of all boot options.
fn push_options(
    text: &mut String,
    form: Form,
    found: &BootVariables<'_>,
) -> Result<(), AllocError> {
    let numbers = found.numbers()?;
    for number in numbers.as_slice() {
        let files = found.options[usize::from(*number)];
        push_option(text, form, *number, files)?;
    }
    Ok(())
}

/// Appends the lines of a boot option.
fn push_option(
    text: &mut String,
    form: Form,
    number: u16,
    found: Found<'_>,
) -> Result<(), AllocError> {
    let name = BootVariable::BootOption(number);
    match found {
        Found::Nothing => push_fault(text, form, name, "missing"),
        Found::Once(bytes) => push_option_value(text, form, number, bytes),
        Found::Twice => push_fault(text, form, name, "twice"),
    }
}

/// Appends the lines of a boot option that has one file.
fn push_option_value(
    text: &mut String,
    form: Form,
    number: u16,
    bytes: &[u8],
) -> Result<(), AllocError> {
    let name = BootVariable::BootOption(number);
    let Some(value) = value_of(bytes) else {
        return push_fault(text, form, name, "refused NoAttributes");
    };
    match LoadOption::try_from(value) {
        Ok(option) => push_boot_option(text, form, number, &option),
        Err(error) => push_fault(text, form, name, fault_of(error)),
    }
}

/// Appends the name of a variable and a fault.
fn push_fault(
    text: &mut String,
    form: Form,
    name: BootVariable,
    fault: &str,
) -> Result<(), AllocError> {
    match form {
        Form::Lines => fallible_writeln!(text, "{name} {fault}"),
        Form::Json => fallible_writeln!(text, "{{\"name\":\"{name}\",\"fault\":\"{fault}\"}}"),
    }
}

/// Appends the text of a boot option.
fn push_boot_option(
    text: &mut String,
    form: Form,
    number: u16,
    option: &LoadOption<'_>,
) -> Result<(), AllocError> {
    match form {
        Form::Lines => push_boot_option_lines(text, number, option),
        Form::Json => push_boot_option_object(text, number, option),
    }
}

/// Appends the lines of a boot option.
fn push_boot_option_lines(
    text: &mut String,
    number: u16,
    option: &LoadOption<'_>,
) -> Result<(), AllocError> {
    push_state(text, number, option.attributes())?;
    push_description(text, option.description())?;
    push_image(text, option)
}

/// Appends the line that says whether a boot option is active, and that of its attributes.
fn push_state(
    text: &mut String,
    number: u16,
    attributes: LoadOptionAttributes,
) -> Result<(), AllocError> {
    let name = BootVariable::BootOption(number);
    let state = state_of(attributes);
    let attributes = HexNumber(u64::from(attributes.bits()));
    fallible_writeln!(text, "{name} {state}\n  attributes {attributes}")
}

/// Returns whether a boot option is active, in a word.
fn state_of(attributes: LoadOptionAttributes) -> &'static str {
    if attributes.contains(LoadOptionAttributes::ACTIVE) {
        "active"
    } else {
        "inactive"
    }
}

/// Appends the line of a description.
fn push_description(
    text: &mut String,
    description: UnalignedSlice<'_>,
) -> Result<(), AllocError> {
    let mut characters = String::new();
    fallible_write!(characters, "{description}")?;
    let description = ShownName(characters.as_str());
    fallible_writeln!(text, "  description {description}")
}

/// Appends the lines of the path to the image and of the data for it.
fn push_image(text: &mut String, option: &LoadOption<'_>) -> Result<(), AllocError> {
    let path = to_text(
        option.file_path(),
        DisplayOnly(false),
        AllowShortcuts(false),
    );
    let (gap, data) = (
        gap_before(option.optional_data()),
        Hex(option.optional_data()),
    );
    fallible_writeln!(text, "  path {path}\n  data{gap}{data}")
}

/// Appends the object of a boot option.
fn push_boot_option_object(
    text: &mut String,
    number: u16,
    option: &LoadOption<'_>,
) -> Result<(), AllocError> {
    push_state_members(text, number, option.attributes())?;
    push_load_option_members(text, option)?;
    text.fallible_push_str("}\n")
}

/// Appends the members for the name of a boot option and for whether it is active.
fn push_state_members(
    text: &mut String,
    number: u16,
    attributes: LoadOptionAttributes,
) -> Result<(), AllocError> {
    let name = BootVariable::BootOption(number);
    let active = json_state(attributes);
    fallible_write!(text, "{{\"name\":\"{name}\",\"active\":{active},")
}

/// Returns whether a boot option is active, as JSON has it.
fn json_state(attributes: LoadOptionAttributes) -> &'static str {
    if attributes.contains(LoadOptionAttributes::ACTIVE) {
        "true"
    } else {
        "false"
    }
}
