// @generated from proved source. It is not edited.

use crate::support::fallible::*;

use crate::rows::hex_digits;
use crate::support::alloc::AllocError;
use crate::test_support::Refusing;
use crate::uefi_hii::{
    ConfigurationString, ConfigurationStringElement, MultiConfigurationStringIter, ParseError,
    parse_all,
};

/// A header with the name A and a path of 4 bytes.
const SHORT_HEADER: &str = "GUID=16d6474bd6a852459d44ccad2e0f4cf9&NAME=0041&PATH=7fff0400";

/// The header of the configurations of a firmware's driver, with a path of 24 bytes.
const ISCSI_HEADER: &str = "GUID=16d6474bd6a852459d44ccad2e0f4cf9\
    &NAME=00490053004300530049005f0043004f004e00460049004700\
    5f004900460052005f004e00560044004100540041\
    &PATH=0104140016d6474bd6a852459d44ccad2e0f4cf97fff0400";

/// Returns the text of an input, in which `@` stands for the short header, `#` for the driver's, and
/// `$` for a line break.
fn text_of(input: &str) -> Result<String, AllocError> {
    let text = input.fallible_replace('@', SHORT_HEADER)?;
    let text = text.as_str().fallible_replace('#', ISCSI_HEADER)?;
    text.as_str().fallible_replace('$', "\n")
}

/// Appends an element: its offset, its width, its value, and the pairs that it keeps.
fn push_element(
    text: &mut String,
    element: &ConfigurationStringElement,
) -> Result<(), AllocError> {
    let value = hex_digits(element.value.as_slice())?;
    fallible_write!(text, " ({}, {}, {value}", element.offset, element.width)?;
    for pair in element.nvconfig.as_slice() {
        let value = pair.value.as_ref().map(|value| value.as_str());
        fallible_write!(text, ", {:?}: {value:?}", pair.key.as_str())?;
    }
    text.fallible_push(')')
}

/// Appends what a reader gives: a configuration's name, the length of its path, its identifier and
/// its elements, or an error.
fn push_item(
    text: &mut String,
    item: &Result<ConfigurationString, ParseError>,
) -> Result<(), AllocError> {
    let configuration = match item {
        Ok(configuration) => configuration,
        Err(error) => return fallible_write!(text, "[{error:?}]"),
    };
    let name = configuration.name.as_str();
    let length = configuration.device_path.as_path().as_bytes().len();
    fallible_write!(text, "[{name}, {length}, {:?}", configuration.alt_cfg_id)?;
    for element in configuration.elements.as_slice() {
        push_element(text, element)?;
    }
    text.fallible_push(']')
}

/// Returns the items that `parse_all` gives, or `None` if memory ran out.
fn all_items(text: &str) -> Option<String> {
    let mut items = String::new();
    for item in parse_all(text).ok()?.as_slice() {
        push_item(&mut items, item).ok()?;
    }
    Some(items)
}

/// Returns the items that the iterator gives before memory runs out, and whether it did. After both
/// it stays ended.
fn iterated(text: &str) -> Option<(String, bool)> {
    let mut items = String::new();
    let mut left = MultiConfigurationStringIter::new(text);
    let mut ran_out = false;
    while let Some(item) = left.next() {
        if let Err(ParseError::Memory) = &item {
            ran_out = true;
            break;
        }
        push_item(&mut items, &item).ok()?;
    }
    if left.next().is_some() || left.next().is_some() {
        items.fallible_push_str(" and the iterator goes on").ok()?;
    }
    Some((items, ran_out))
}

/// Returns the items of a text: the same by `parse_all` and by the iterator, of which those before
/// memory runs out are the first.
pub(crate) fn items(input: &str) -> Option<String> {
    let text = text_of(input).ok()?;
    let all = all_items(text.as_str())?;
    let (items, ran_out) = iterated(text.as_str())?;
    let is_first = all.as_str().starts_with(items.as_str());
    if !is_first || !ran_out && items != all {
        return fallible_format!("{all}, and by the iterator {items}").ok();
    }
    if ran_out {
        return None;
    }
    all_items(text.as_str())
}

/// Returns the GUID of the first configuration of a text, and the configuration, or the error.
pub(crate) fn first(input: &str) -> Option<String> {
    let text = text_of(input).ok()?;
    let first = ConfigurationString::from_str(text.as_str());
    let mut item = String::new();
    match &first {
        Ok(configuration) => fallible_write!(item, "{} ", configuration.guid).ok()?,
        Err(ParseError::Memory) => return None,
        Err(_) => (),
    }
    push_item(&mut item, &first).ok()?;
    Some(item)
}
