// @generated from proved source. It is not edited.

//! The data that the arguments of a text make.

use crate::formats::uefi_path_text::form::argument::Argument;
use crate::formats::uefi_path_text::form::{Parameter, Part};
use crate::formats::uefi_path_text::parse::cut::next_text;
use crate::formats::uefi_path_text::parse::value::Value;
use crate::formats::uefi_base::buffer::put;

/// The greatest length of the data of a node.
pub(crate) const GREATEST_DATA: usize = 0xfffb;

/// The arguments of a text, which has all of them.
#[derive(Clone, Copy)]
pub(crate) struct Listed<'a> {
    /// The arguments of the form.
    pub(crate) parameters: &'static [Parameter],
    /// Their texts, with commas between them; `None` if there are none.
    pub(crate) texts: Option<&'a [u8]>,
}

impl core::fmt::Debug for Listed<'_> {
    fn fmt(&self, f: &mut core::fmt::Formatter<'_>) -> core::fmt::Result {
        f.debug_struct("Listed")
            .field("parameters", &self.parameters)
            .field("texts", &self.texts.map(crate::support::debug::Bytes))
            .finish()
    }
}

impl<'a> Listed<'a> {
    /// Returns the value of the argument at an index; the empty text, if there is none.
    #[inline]
    fn value(&self, index: usize) -> Value<'a> {
        match argument_at(self.parameters, self.texts, index) {
            Some((argument, text)) => value_of(argument, text),
            None => Value::Text(&[]),
        }
    }

    /// Returns the number of bytes of the argument at an index.
    #[inline]
    fn value_len(&self, index: usize) -> usize {
        match argument_at(self.parameters, self.texts, index) {
            Some((argument, text)) => argument.value_len(text),
            None => 0,
        }
    }

    /// Returns the number of two bytes that the argument at an index is, or else 0.
    #[inline]
    fn number(&self, index: usize) -> u16 {
        let value = self.value(index);
        if value.len() != 2 {
            return 0;
        }
        let mut bytes = [0; 2];
        value.put(&mut bytes);
        u16::from_le_bytes(bytes)
    }

    /// Returns the first byte of the argument at an index, if it is one byte, and else 0.
    #[inline]
    pub(crate) fn byte(&self, index: usize) -> u8 {
        let value = self.value(index);
        if value.len() != 1 {
            return 0;
        }
        let mut bytes = [0];
        value.put(&mut bytes);
        bytes[0]
    }

    /// Returns the sum of numbers of two bytes: of the arguments from an index on, so many.
    #[inline]
    fn sum(&self, index: u8, count: u8) -> u64 {
        let mut sum = 0;
        for i in 0..count {
            sum += u64::from(self.number(usize::from(index) + usize::from(i)));
        }
        sum
    }

    /// Returns the length of a part of the data.
    #[inline]
    fn part_len(&self, part: &Part) -> usize {
        match part {
            Part::Bytes(bytes) => bytes.len(),
            Part::Value(index) => self.value_len(*index),
            Part::Padded(index) => self.value_len(*index).max(32),
            Part::Sum(_, _) => 2,
        }
    }

    /// Writes a part of the data at an offset.
    #[inline]
    fn put_part(&self, buffer: &mut [u8], offset: usize, part: &Part) {
        match part {
            Part::Bytes(bytes) => put(buffer, offset, bytes),
            Part::Value(index) => put_value(buffer, offset, &self.value(*index)),
            Part::Padded(index) => put_padded(buffer, offset, &self.value(*index)),
            Part::Sum(index, count) => {
                put_value(buffer, offset, &Value::Number(self.sum(*index, *count), 2));
            }
        }
    }

    /// Returns the length of the parts of the data, or `None` if no node has so many bytes.
    #[inline]
    pub(crate) fn len(&self, parts: &[Part]) -> Option<usize> {
        let Some((part, others)) = parts.split_first() else {
            return Some(0);
        };
        let after = self.len(others)?;
        let size = self.part_len(part);
        if size > GREATEST_DATA - after {
            return None;
        }
        Some(size + after)
    }

    /// Writes the parts of the data at an offset.
    #[inline]
    pub(crate) fn put(&self, buffer: &mut [u8], offset: usize, parts: &[Part]) {
        if let Some((part, others)) = parts.split_first() {
            self.put_part(buffer, offset, part);
            self.put(buffer, offset + self.part_len(part), others);
        }
    }
}

/// Returns the argument at an index with its text, which may be the default, if there is one.
#[inline]
fn argument_at<'a>(
    parameters: &'static [Parameter],
    texts: Option<&'a [u8]>,
    index: usize,
) -> Option<(Argument, &'a [u8])> {
    let Some((parameter, others)) = parameters.split_first() else {
        return None;
    };
    let (text, rest) = next_text(texts);
    if index > 0 {
        return argument_at(others, rest, index - 1);
    }
    Some((parameter.argument, parameter.text_or_default(text)))
}

/// Returns the value of a text of the argument's.
#[inline]
pub(crate) fn value_of(argument: Argument, text: &[u8]) -> Value<'_> {
    match argument.read(text) {
        Ok(value) => value,
        Err(_) => unreachable!(),
    }
}

impl Argument {
    /// Returns how many bytes a text of the argument's stands for.
    #[inline]
    pub(crate) fn value_len(self, text: &[u8]) -> usize {
        self.length_of_text(text)
    }

    /// The same without a test of the text.
    #[inline]
    fn length_of_text(self, text: &[u8]) -> usize {
        match self {
            Argument::Number(size, _) | Argument::Word(_, size) => size.bytes(),
            Argument::BigEndian => 8,
            Argument::Digits(shape) => shape.size(),
            Argument::Bytes(_) | Argument::HardwareAddress => text.len() / 2,
            Argument::Ipv4 | Argument::EisaId | Argument::PnpId => 4,
            Argument::Ipv4Server | Argument::Ipv6 => 16,
            Argument::EisaLetters | Argument::DriveBay => 2,
            Argument::Text(_) | Argument::Name(_) => text.len(),
            Argument::Quoted => 2 * text.len().saturating_sub(2),
        }
    }
}

/// Writes a value at an offset.
#[inline]
pub(crate) fn put_value(buffer: &mut [u8], offset: usize, value: &Value<'_>) {
    let end = offset + value.len();
    value.put(&mut buffer[offset..end]);
}

/// Writes a value at an offset, with zeros after it, in 32 bytes.
#[inline]
fn put_padded(buffer: &mut [u8], offset: usize, value: &Value<'_>) {
    let size = value.len();
    put_value(buffer, offset, value);
    put(buffer, offset + size, &[0; 32][size.min(32)..]);
}
