// @generated from proved source. It is not edited.

use crate::support::fallible::*;

use crate::audit_text::parts::{Part, PartValue, content_parts};
use crate::serde_json::{Map, Value, put};
use crate::support::alloc::AllocError;
use crate::uefi_audits::content::EventContent;

/// Returns what data say as JSON: an object with one key for the form, or `null`.
pub(crate) fn content_json(content: &EventContent<'_>) -> Result<Value, AllocError> {
    let parts = content_parts(content)?;
    if parts.is_empty() {
        return Ok(Value::Null);
    }
    Ok(Value::Object(members(&parts)?))
}

/// Returns the members of an object of parts: those that have a key.
fn members(parts: &Vec<Part<'_>>) -> Result<Map<String, Value>, AllocError> {
    let mut members = Map::new();
    for part in parts {
        if let Some(key) = part.key {
            put(&mut members, key, value_json(&part.value)?)?;
        }
    }
    Ok(members)
}

/// Returns a value as JSON.
fn value_json(value: &PartValue<'_>) -> Result<Value, AllocError> {
    match value {
        PartValue::Empty => Ok(Value::Null),
        PartValue::Decimal(number) | PartValue::Hexadecimal(number) => Ok(Value::from(*number)),
        PartValue::BootNumber(number) => Ok(Value::from(*number)),
        PartValue::Guid(guid) => Ok(Value::String(guid.fallible_to_string()?)),
        PartValue::Text(text) | PartValue::Plain(text) => Value::try_from_str(text.as_str()),
        PartValue::Bytes(bytes) => Ok(Value::String(crate::hex::encode(bytes)?)),
        PartValue::Object(parts) => Ok(Value::Object(members(parts)?)),
        PartValue::List(values) => {
            let mut items = Vec::new();
            for value in values {
                items.fallible_push(value_json(value)?)?;
            }
            Ok(Value::Array(items))
        }
    }
}
