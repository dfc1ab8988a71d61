// @generated from proved source. It is not edited.

use crate::formats::uefi_path_text::form::argument::Argument;
use crate::formats::uefi_path_text::form::{Parameter, Part};
use crate::formats::uefi_path_text::write::bytes::{after, after_front, front, number};
use core::fmt;

/// The data of a node, and what a form makes of them.
#[derive(Clone, Copy)]
pub(crate) struct Fields<'a> {
    /// The arguments of the form.
    pub(crate) parameters: &'static [Parameter],
    /// The parts of the data.
    pub(crate) parts: &'static [Part],
    /// The data.
    pub(crate) payload: &'a [u8],
}

impl core::fmt::Debug for Fields<'_> {
    fn fmt(&self, f: &mut core::fmt::Formatter<'_>) -> core::fmt::Result {
        f.debug_struct("Fields")
            .field("parameters", &self.parameters)
            .field("parts", &self.parts)
            .field("payload", &crate::support::debug::Bytes(self.payload))
            .finish()
    }
}

/// The value of an argument.
#[derive(Clone, Copy, Debug)]
pub(crate) enum Found<'a> {
    /// Bytes of the data.
    Bytes(&'a [u8]),
    /// A number of two bytes.
    Number(u16),
}

impl<'a> Found<'a> {
    /// Returns whether the value has a text as an argument.
    #[inline]
    fn can_show(&self, argument: Argument) -> bool {
        match self {
            Found::Bytes(bytes) => argument.can_show(bytes),
            Found::Number(number) => argument.can_show(&number.to_le_bytes()),
        }
    }

    /// Returns whether the value is left out, if it is the last.
    #[inline]
    pub(crate) fn is_left_out(&self, argument: Argument) -> bool {
        match self {
            Found::Bytes(bytes) => argument.is_left_out(bytes),
            Found::Number(number) => argument.is_left_out(&number.to_le_bytes()),
        }
    }

    /// Writes the value as an argument.
    #[inline]
    fn write(&self, f: &mut fmt::Formatter<'_>, argument: Argument) -> fmt::Result {
        match self {
            Found::Bytes(bytes) => argument.write_value(f, bytes),
            Found::Number(number) => argument.write_value(f, &number.to_le_bytes()),
        }
    }

    /// Returns the number of two bytes that the value is, or else 0.
    #[inline]
    fn number(&self) -> u16 {
        match self {
            Found::Bytes([low, high]) => u16::from_le_bytes([*low, *high]),
            Found::Bytes(_) => 0,
            Found::Number(number) => *number,
        }
    }

    /// Returns what follows the value in bytes, if they begin with it.
    #[inline]
    fn after<'b>(&self, rest: &'b [u8]) -> Option<&'b [u8]> {
        match self {
            Found::Bytes(bytes) => after_front(rest, bytes),
            Found::Number(number) => after_front(rest, &number.to_le_bytes()),
        }
    }

    /// Returns the number of bytes.
    #[inline]
    fn len(&self) -> usize {
        match self {
            Found::Bytes(bytes) => bytes.len(),
            Found::Number(_) => 2,
        }
    }
}

/// Returns the argument at an index, if there is one.
#[inline]
fn argument_at(parameters: &[Parameter], index: usize) -> Option<Argument> {
    let (parameter, others) = parameters.split_first()?;
    if index == 0 {
        Some(parameter.argument)
    } else {
        argument_at(others, index - 1)
    }
}

/// Returns how many of the bytes are the value of the argument at an index.
#[inline]
fn size_at(parameters: &[Parameter], index: usize, rest: &[u8]) -> usize {
    match argument_at(parameters, index) {
        None => 0,
        Some(argument) => argument.value_size(rest),
    }
}

/// Returns what an argument adds to a sum.
#[inline]
fn addend(argument: Option<Argument>, sum: u16) -> u16 {
    match argument {
        Some(Argument::Word(words, _)) => words.bit_word(u64::from(sum)) as u16,
        Some(Argument::DriveBay) => sum % 0x10 + sum / 0x100 * 0x100,
        _ => 0,
    }
}

/// Returns how many bytes a part has.
#[inline]
pub(crate) fn part_size(parameters: &[Parameter], part: &Part, rest: &[u8]) -> usize {
    match part {
        Part::Bytes(bytes) => bytes.len(),
        Part::Value(index) => size_at(parameters, *index, rest),
        Part::Padded(_) => 32,
        Part::Sum(_, _) => 2,
    }
}

/// Returns whether a part has the value of the argument at an index.
#[inline]
fn is_of(index: usize, part: &Part) -> bool {
    match part {
        Part::Bytes(_) => false,
        Part::Value(i) | Part::Padded(i) => *i == index,
        Part::Sum(first, count) => {
            usize::from(*first) <= index && index < usize::from(*first) + usize::from(*count)
        }
    }
}

/// Returns the value of the argument at an index that a part has.
#[inline]
fn value_of_part<'a>(
    parameters: &[Parameter],
    index: usize,
    part: &Part,
    rest: &'a [u8],
) -> Found<'a> {
    match part {
        Part::Bytes(_) => Found::Bytes(&[]),
        Part::Value(_) => Found::Bytes(front(rest, size_at(parameters, index, rest))),
        Part::Padded(_) => {
            Found::Bytes(front(front(rest, 32), size_at(parameters, index, rest)))
        }
        Part::Sum(_, _) => {
            let sum = number(front(rest, 2)) as u16;
            Found::Number(addend(argument_at(parameters, index), sum))
        }
    }
}

/// Returns the value of an argument that is in no part.
#[inline]
fn zero_value(argument: Option<Argument>) -> Found<'static> {
    match argument {
        Some(Argument::Word(_, size)) => Found::Bytes(&[0; 8][..size.bytes()]),
        _ => Found::Bytes(&[]),
    }
}

/// Returns the value of the argument at an index that these parts have.
#[inline]
fn value_found<'a>(
    parameters: &[Parameter],
    parts: &[Part],
    index: usize,
    rest: &'a [u8],
) -> Found<'a> {
    let Some((part, others)) = parts.split_first() else {
        return zero_value(argument_at(parameters, index));
    };
    if is_of(index, part) {
        value_of_part(parameters, index, part, rest)
    } else {
        let size = part_size(parameters, part, rest);
        value_found(parameters, others, index, after(rest, size))
    }
}

impl<'a> Fields<'a> {
    /// Returns the value of the argument at an index.
    #[inline]
    pub(crate) fn found(&self, index: usize) -> Found<'a> {
        value_found(self.parameters, self.parts, index, self.payload)
    }

    /// The same, or the empty value if there is none.
    #[inline]
    fn value(&self, index: usize) -> Found<'a> {
        if index < self.parameters.len() {
            self.found(index)
        } else {
            Found::Bytes(&[])
        }
    }

    /// Returns the sum of numbers of two bytes: of the arguments from an index on, so many.
    #[inline]
    fn sum(&self, index: u8, count: u8) -> u64 {
        let mut sum = 0;
        for i in 0..count {
            let value = self.value(usize::from(index) + usize::from(i));
            sum += u64::from(value.number());
        }
        sum
    }

    /// Returns what follows a part in bytes, if they begin with it.
    #[inline]
    fn after_part<'b>(&self, part: &Part, rest: &'b [u8]) -> Option<&'b [u8]> {
        match part {
            Part::Bytes(bytes) => after_front(rest, bytes),
            Part::Value(index) => self.value(*index).after(rest),
            Part::Padded(index) => after_padded(&self.value(*index), rest),
            Part::Sum(index, count) => {
                let sum = self.sum(*index, *count).to_le_bytes();
                after_front(rest, &sum[..2])
            }
        }
    }

    /// Returns whether bytes are the parts.
    #[inline]
    fn are_parts(&self, parts: &[Part], rest: &[u8]) -> bool {
        let Some((part, others)) = parts.split_first() else {
            return rest.is_empty();
        };
        match self.after_part(part, rest) {
            None => false,
            Some(more) => self.are_parts(others, more),
        }
    }

    /// Returns whether the values of these arguments, from an index on, have texts.
    #[inline]
    fn are_shown(&self, parameters: &[Parameter], index: usize) -> bool {
        let Some((parameter, others)) = parameters.split_first() else {
            return true;
        };
        self.found(index).can_show(parameter.argument) && self.are_shown(others, index + 1)
    }

    /// Returns whether the data are the parts of the values, which have texts.
    #[inline]
    pub(crate) fn are_whole(&self) -> bool {
        // Its length says that an index of an argument has no overflow.
        let _few = self.parameters.len();
        self.are_parts(self.parts, self.payload) && self.are_shown(self.parameters, 0)
    }

    /// Writes the values of the arguments, with commas between them, and the closing parenthesis.
    #[inline]
    pub(crate) fn write(&self, f: &mut fmt::Formatter<'_>) -> fmt::Result {
        // Its length says that an index of an argument has no overflow.
        let _few = self.parameters.len();
        self.write_from(f, self.parameters, 0, "")
    }

    /// The same for so many arguments, from an index on.
    #[inline]
    pub(crate) fn write_some(
        &self,
        f: &mut fmt::Formatter<'_>,
        first: usize,
        count: usize,
    ) -> fmt::Result {
        let shown = front(after(self.parameters, first), count);
        self.write_from(f, shown, first, "")
    }

    /// Writes the values of these arguments, from an index on, with a mark before the first and
    /// commas between them, and the closing parenthesis.
    #[inline]
    fn write_from(
        &self,
        f: &mut fmt::Formatter<'_>,
        parameters: &[Parameter],
        index: usize,
        mark: &str,
    ) -> fmt::Result {
        let Some((parameter, others)) = parameters.split_first() else {
            return f.write_str(")");
        };
        let value = self.found(index);
        if others.is_empty() && value.is_left_out(parameter.argument) {
            return f.write_str(")");
        }
        f.write_str(mark)?;
        value.write(f, parameter.argument)?;
        self.write_from(f, others, index + 1, ",")
    }
}

/// Returns what follows a value and zeros after it, in 32 bytes, if bytes begin with them.
#[inline]
fn after_padded<'b>(value: &Found<'_>, rest: &'b [u8]) -> Option<&'b [u8]> {
    let more = value.after(rest)?;
    after_front(more, &[0; 32][value.len().min(32)..])
}
