//! Values of JSON that are written, by hand: what the programs call of the crate `serde_json`. The toolchain's stands on
//! four other crates, which write numbers that aren't whole and read texts. No program does either.

use crate::support::alloc::AllocError;
use crate::support::collections::BTreeMap;
use crate::support::fallible::*;

/// The members of an object, in the order of their keys.
pub(crate) type Map<K, V> = BTreeMap<K, V>;

/// A value of JSON.
#[derive(PartialEq, Debug)]
pub(crate) enum Value {
    Null,
    Bool(bool),
    Number(u64),
    String(String),
    Array(Vec<Value>),
    Object(Map<String, Value>),
}

impl Value {
    /// Returns a string.
    ///
    /// # Errors
    ///
    /// [`AllocError`] if an allocation fails, as of all these calls.
    pub(crate) fn try_from_str(text: &str) -> Result<Value, AllocError> {
        Ok(Value::String(<String as FallibleString>::fallible_from_str(text)?))
    }

    /// Returns the value's text, without blanks.
    pub(crate) fn fallible_to_string(&self) -> Result<String, AllocError> {
        let mut text = String::new();
        self.write(&mut text)?;
        Ok(text)
    }

    /// Appends the value's text.
    fn write(&self, out: &mut String) -> Result<(), AllocError> {
        match self {
            Value::Null => out.fallible_push_str("null"),
            Value::Bool(true) => out.fallible_push_str("true"),
            Value::Bool(false) => out.fallible_push_str("false"),
            Value::Number(number) => write_number(out, *number),
            Value::String(text) => write_string(out, text),
            Value::Array(items) => write_items(out, items),
            Value::Object(members) => write_members(out, members),
        }
    }
}

/// Appends a number in decimal.
fn write_number(out: &mut String, number: u64) -> Result<(), AllocError> {
    let (mut digits, mut start, mut rest) = ([b'0'; 20], 19, number);
    while rest > 9 {
        digits[start] += (rest % 10) as u8;
        start -= 1;
        rest /= 10;
    }
    digits[start] += rest as u8;
    out.fallible_push_str(core::str::from_utf8(&digits[start..]).unwrap_or_default())
}

/// Appends the items of an array.
fn write_items(out: &mut String, items: &[Value]) -> Result<(), AllocError> {
    out.fallible_push('[')?;
    for (index, item) in items.iter().enumerate() {
        out.fallible_push_str(if index > 0 { "," } else { "" })?;
        item.write(out)?;
    }
    out.fallible_push(']')
}

/// Appends the members of an object.
fn write_members(out: &mut String, members: &Map<String, Value>) -> Result<(), AllocError> {
    out.fallible_push('{')?;
    for (index, (key, value)) in members.iter().enumerate() {
        out.fallible_push_str(if index > 0 { "," } else { "" })?;
        write_string(out, key)?;
        out.fallible_push(':')?;
        value.write(out)?;
    }
    out.fallible_push('}')
}

/// Appends a text in quotes. Quotes, backslashes and the characters below the space are escaped.
fn write_string(out: &mut String, text: &str) -> Result<(), AllocError> {
    out.fallible_push('"')?;
    let mut rest = text;
    while let Some(at) = rest.bytes().position(|byte| byte < b' ' || byte == b'"' || byte == b'\\') {
        out.fallible_push_str(&rest[..at])?;
        write_escape(out, rest.as_bytes()[at])?;
        rest = &rest[at + 1..];
    }
    out.fallible_push_str(rest)?;
    out.fallible_push('"')
}

/// Appends the escape of a character.
fn write_escape(out: &mut String, character: u8) -> Result<(), AllocError> {
    match character {
        b'"' => out.fallible_push_str("\\\""),
        b'\\' => out.fallible_push_str("\\\\"),
        8 => out.fallible_push_str("\\b"),
        12 => out.fallible_push_str("\\f"),
        b'\n' => out.fallible_push_str("\\n"),
        b'\r' => out.fallible_push_str("\\r"),
        b'\t' => out.fallible_push_str("\\t"),
        _ => fallible_write!(out, "\\u{character:04x}"),
    }
}

/// What is a value, or is copied to one.
pub(crate) trait ToValue {
    /// Returns the value.
    fn to_value(self) -> Result<Value, AllocError>;
}

impl<T: Into<Value>> ToValue for T {
    fn to_value(self) -> Result<Value, AllocError> {
        Ok(self.into())
    }
}

impl ToValue for &str {
    fn to_value(self) -> Result<Value, AllocError> {
        Value::try_from_str(self)
    }
}

/// Inserts a member of an object.
pub(crate) fn put<T: ToValue>(members: &mut Map<String, Value>, key: &str, value: T) -> Result<(), AllocError> {
    let key = <String as FallibleString>::fallible_from_str(key)?;
    members.insert(key, value.to_value()?)?;
    Ok(())
}

/// `Value::from` for a type, by an expression.
macro_rules! from {
    ($($of:ty: $it:ident => $value:expr;)*) => {
        $(impl From<$of> for Value {
            fn from($it: $of) -> Value {
                $value
            }
        })*
    };
}

from! {
    u8: number => Value::Number(number.into());
    u16: number => Value::Number(number.into());
    u32: number => Value::Number(number.into());
    u64: number => Value::Number(number);
    usize: number => Value::Number(number as u64);
    bool: is => Value::Bool(is);
    String: text => Value::String(text);
    Vec<Value>: items => Value::Array(items);
    Map<String, Value>: members => Value::Object(members);
}

impl<T: Into<Value>> From<Option<T>> for Value {
    fn from(value: Option<T>) -> Value {
        value.map_or(Value::Null, Into::into)
    }
}

/// An object of these members.
macro_rules! json {
    ({$($key:literal: $value:expr),* $(,)?}) => {
        (|| -> Result<$crate::serde_json::Value, $crate::support::alloc::AllocError> {
            let mut members = $crate::serde_json::Map::new();
            $($crate::serde_json::put(&mut members, $key, $value)?;)*
            Ok($crate::serde_json::Value::Object(members))
        })()
    };
}
pub(crate) use json;

#[cfg(test)]
mod tests {
    use super::*;

    /// Each kind of value has its text.
    #[test]
    fn values_have_their_texts() -> Result<(), AllocError> {
        let items = vec![Value::Null, Value::from(true), Value::from(false), Value::from(0u8), Value::from(10u16), Value::from(u64::MAX)];
        let value: Result<Value, AllocError> = json!({"b": items, "a": "text", "": Option::<u8>::None});
        assert_eq!(value?.fallible_to_string()?, r#"{"":null,"a":"text","b":[null,true,false,0,10,18446744073709551615]}"#);
        Ok(())
    }

    /// Strings have escapes for quotes, backslashes and controls below the space, and for no other characters.
    #[test]
    fn strings_are_escaped() -> Result<(), AllocError> {
        let value = Value::try_from_str("a\"\\\u{8}\u{c}\n\r\t\0\u{1f} /\u{7f}é€😀")?;
        assert_eq!(value.fallible_to_string()?, "\"a\\\"\\\\\\b\\f\\n\\r\\t\\u0000\\u001f /\u{7f}é€😀\"");
        Ok(())
    }
}
