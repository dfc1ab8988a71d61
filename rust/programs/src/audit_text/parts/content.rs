// @generated from proved source. It is not edited.

use crate::support::fallible::*;

use crate::audit_text::parts::firmware::{blob_parts, described_parts, header_parts, tagged_events_parts};
use crate::audit_text::parts::gpt::gpt_parts;
use crate::audit_text::parts::part::{Part, PartValue, PartsResult};
use crate::audit_text::parts::path::image_parts;
use crate::audit_text::parts::signatures::{lists_value, signature_parts};
use crate::audit_text::parts::texts::{event_value, version_value};
use crate::audit_text::parts::variable::{boot_option_parts, boot_order_value, unread_parts, variable_parts};
use uefi_formats::proto::tcg::content::VariableData;
use crate::uefi_audits::content::EventContent;

/// Returns the parts of what data say; none, if they aren't read.
pub(crate) fn content_parts<'a>(content: &EventContent<'a>) -> PartsResult<'a> {
    match content {
        EventContent::Unread => Ok(Vec::new()),
        EventContent::Text(said) => {
            let said = PartValue::Text(String::fallible_from_str(said)?);
            line("text", "  text ", said)
        }
        EventContent::Separator(number) => {
            let number = PartValue::Hexadecimal(u64::from(*number));
            line("separator", "  separator ", number)
        }
        EventContent::Locality(number) => {
            let number = PartValue::Decimal(u64::from(*number));
            line("locality", "  started at locality ", number)
        }
        EventContent::Header(header) => only("header", header_parts(header)?),
        EventContent::LoaderText(said) => line("text", "  text ", event_value(said)?),
        EventContent::CrtmVersion(version) => {
            let version = version_value(version)?;
            line("crtm_version", "  version ", version)
        }
        EventContent::Blob(blob) => only("blob", blob_parts(blob)?),
        EventContent::DescribedBlob(blob) => only("blob", described_parts(blob)?),
        EventContent::Tagged(tagged) => {
            only("tagged_events", tagged_events_parts(tagged)?)
        }
        EventContent::Gpt(gpt) => only("gpt", gpt_parts(gpt)?),
        EventContent::Variable(variable) => {
            let value = unread_parts(variable.data)?;
            only("variable", variable_parts(variable, value)?)
        }
        EventContent::BootOption(variable, option) => {
            let value = only("boot_option", boot_option_parts(option)?)?;
            read_variable(variable, value)
        }
        EventContent::BootOrder(variable, order) => {
            let order = boot_order_value(order)?;
            let value = line("boot_order", "  boot order", order)?;
            read_variable(variable, value)
        }
        EventContent::SignatureLists(variable, lists) => {
            let lists = lists_value(lists)?;
            let value = fallible_vec![Part::new("signature_lists", "", lists)]?;
            read_variable(variable, value)
        }
        EventContent::Signature(variable, signature) => {
            let value = only("signature", signature_parts(signature)?)?;
            read_variable(variable, value)
        }
        EventContent::Image(image, path) => only("image", image_parts(image, path)?),
    }
}

/// Returns a line of one value.
fn line<'a>(
    key: &'static str,
    words: &'static str,
    value: PartValue<'a>,
) -> PartsResult<'a> {
    Ok(fallible_vec![Part::new(key, words, value), Part::words("\n")]?)
}

/// Returns an object alone.
fn only<'a>(key: &'static str, parts: Vec<Part<'a>>) -> PartsResult<'a> {
    Ok(fallible_vec![Part::new(key, "", PartValue::Object(parts))]?)
}

/// Returns a variable with what its value says.
fn read_variable<'a>(
    variable: &VariableData<'a>,
    value: Vec<Part<'a>>,
) -> PartsResult<'a> {
    let value = only("value", value)?;
    only("variable", variable_parts(variable, value)?)
}
