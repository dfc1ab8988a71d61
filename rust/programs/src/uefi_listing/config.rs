// @generated from proved source. It is not edited.

//! What `config` lists of bytes, and what it refuses.

use crate::support::fallible::*;

use crate::uefi_listing::listing::Outcome;
use crate::shown::{Hex, gap_before};
use crate::support::alloc::AllocError;
use uefi_formats::proto::hii::config_str::{
    ConfigHdrSection, ConfigurationString, ConfigurationStringElement,
    MultiConfigurationStringIter, NvPair, ParseError,
};

/// Appends the lines of the configurations and faults that the iterator has left, and last
/// `items N`, their count.
///
/// A configuration has the lines `config GUID`, `  name NAME`, `  path N` with the length of its
/// path in bytes, and `  alt N` if it is an alternative one; then for each element
/// `  element OFFSET WIDTH VALUE`, the value in hex, and for each pair that it keeps
/// `  nv KEY=VALUE`, or `  nv KEY` for a pair without a value. A fault has the line `fault NAME`.
///
/// # Errors
///
/// [`AllocError`] if an allocation fails, here or in the iterator. The text may have grown then.
pub fn push_configurations(
    text: &mut String,
    mut items: MultiConfigurationStringIter<'_>,
) -> Result<(), AllocError> {
    let mut count = 0usize;
    while let Some(item) = items.next() {
        push_item(text, &item)?;
        count += 1;
    }
    fallible_writeln!(text, "items {count}")?;
    Ok(())
}

/// Appends the lines of a configuration, or the line of the fault.
fn push_item(
    text: &mut String,
    item: &Result<ConfigurationString, ParseError>,
) -> Result<(), AllocError> {
    match item {
        Ok(configuration) => push_configuration(text, configuration),
        Err(ParseError::Memory) => Err(AllocError),
        Err(fault) => push_fault(text, *fault),
    }
}

/// Appends the lines of a configuration: its header, and its elements.
fn push_configuration(
    text: &mut String,
    configuration: &ConfigurationString,
) -> Result<(), AllocError> {
    push_header(text, configuration)?;
    push_alt(text, configuration.alt_cfg_id)?;
    push_elements(text, configuration.elements.as_slice())?;
    Ok(())
}

/// Appends the lines of the GUID, the name and the path of a configuration.
fn push_header(
    text: &mut String,
    configuration: &ConfigurationString,
) -> Result<(), AllocError> {
    let (guid, name) = (configuration.guid, configuration.name.as_str());
    let length = configuration.device_path.as_path().as_bytes().len();
    fallible_writeln!(text, "config {guid}\n  name {name}\n  path {length}")
}

/// Appends the line of the identifier of an alternative configuration.
fn push_alt(text: &mut String, alt_cfg_id: Option<u16>) -> Result<(), AllocError> {
    match alt_cfg_id {
        Some(id) => fallible_writeln!(text, "  alt {id}"),
        None => Ok(()),
    }
}

/// Appends the lines of each element.
fn push_elements(
    text: &mut String,
    elements: &[ConfigurationStringElement],
) -> Result<(), AllocError> {
    for element in elements {
        push_element(text, element)?;
    }
    Ok(())
}

/// Appends the lines of an element: its own, and a line for each pair that it keeps.
fn push_element(
    text: &mut String,
    element: &ConfigurationStringElement,
) -> Result<(), AllocError> {
    push_element_line(text, element)?;
    push_nvconfig(text, element.nvconfig.as_slice())?;
    Ok(())
}

/// Appends the line of an element without its pairs.
fn push_element_line(
    text: &mut String,
    element: &ConfigurationStringElement,
) -> Result<(), AllocError> {
    let (offset, width) = (element.offset, element.width);
    let (gap, value) = (
        gap_before(element.value.as_slice()),
        Hex(element.value.as_slice()),
    );
    fallible_writeln!(text, "  element {offset} {width}{gap}{value}")
}

/// Appends a line for each pair.
fn push_nvconfig(
    text: &mut String,
    nvconfig: &[NvPair],
) -> Result<(), AllocError> {
    for pair in nvconfig {
        push_nv_pair(text, pair)?;
    }
    Ok(())
}

/// Appends the line of a pair: its key, and its value if it has one.
fn push_nv_pair(text: &mut String, pair: &NvPair) -> Result<(), AllocError> {
    let key = pair.key.as_str();
    match &pair.value {
        Some(value) => {
            let value = value.as_str();
            fallible_writeln!(text, "  nv {key}={value}")
        }
        None => fallible_writeln!(text, "  nv {key}"),
    }
}

/// Appends the line that names a fault. Running out of memory is none, and has no line.
fn push_fault(text: &mut String, fault: ParseError) -> Result<(), AllocError> {
    let line = match fault {
        ParseError::ConfigHdr(part) => {
            let name = section_name(part);
            return fallible_writeln!(text, "fault ConfigHdr({name})");
        }
        ParseError::BlockName => "fault BlockName\n",
        ParseError::BlockConfig => "fault BlockConfig\n",
        ParseError::Memory => "",
    };
    text.fallible_push_str(line)
}

/// Returns the name of a part of a header.
fn section_name(part: ConfigHdrSection) -> &'static str {
    match part {
        ConfigHdrSection::Guid => "Guid",
        ConfigHdrSection::Name => "Name",
        ConfigHdrSection::Path => "Path",
        ConfigHdrSection::DescHdr => "DescHdr",
    }
}

/// Appends the listing of the bytes as a configuration text. Its configurations are read one after
/// another, and none is kept once its lines are appended.
///
/// # Errors
///
/// [`AllocError`] if an allocation fails. The text may have grown then.
pub(crate) fn push_config_listing(
    text: &mut String,
    bytes: &[u8],
) -> Result<Outcome, AllocError> {
    match core::str::from_utf8(bytes) {
        Ok(input) => {
            push_configurations(text, MultiConfigurationStringIter::new(input))?;
            Ok(Outcome::Listed)
        }
        Err(_) => {
            fallible_writeln!(text, "refused NotUtf8")?;
            Ok(Outcome::Refused)
        }
    }
}
