// @generated from proved source. It is not edited.

//! The texts of arguments, checked.

use crate::formats::uefi_path_text::form::argument::Argument;
use crate::formats::uefi_path_text::form::{Arguments, Parameter};
use crate::formats::uefi_path_text::parse::cut::{cut, next_text, start_of};
use crate::formats::uefi_path_text::parse::fault::{Fault, FaultKind};

impl Parameter {
    /// Returns the text of the argument, or the default if it is left out or empty.
    #[inline]
    pub(crate) fn text_or_default<'a>(&self, text: &'a [u8]) -> &'a [u8] {
        if text.is_empty() {
            self.default.as_bytes()
        } else {
            text
        }
    }

    /// Checks the text of the argument.
    #[inline]
    fn check(&self, text: &[u8]) -> Result<(), Fault> {
        match self.argument.read(self.text_or_default(text)) {
            Ok(_) => Ok(()),
            Err(offset) => Err(self.argument.fault(text, offset.min(text.len()))),
        }
    }
}

/// Checks the texts of all arguments, which end at the offset `end`.
#[inline]
pub(crate) fn check(arguments: &Arguments, texts: Option<&[u8]>, end: usize) -> Result<(), Fault> {
    match arguments {
        Arguments::Listed(parameters, _) => check_listed(parameters, texts, end),
        Arguments::Repeated(_, kind) => check_repeated(*kind, texts, end),
    }
}

/// Checks the texts of arguments that are listed.
#[inline]
fn check_listed(parameters: &[Parameter], texts: Option<&[u8]>, end: usize) -> Result<(), Fault> {
    let start = start_of(texts, end);
    let Some((parameter, others)) = parameters.split_first() else {
        return match texts {
            None => Ok(()),
            Some(_) => Err(Fault {
                offset: start.saturating_sub(1),
                kind: FaultKind::Argument,
            }),
        };
    };
    let (text, rest) = next_text(texts);
    match parameter.check(text) {
        Ok(()) => check_listed(others, rest, end),
        Err(fault) => Err(fault.after(start)),
    }
}

/// Checks the texts of one or more arguments of a kind.
#[inline]
fn check_repeated(kind: Argument, texts: Option<&[u8]>, end: usize) -> Result<(), Fault> {
    let mut rest = texts;
    while let Some(parts) = rest {
        let (text, others) = cut(parts, b',');
        if let Err(offset) = kind.read(text) {
            return Err(kind.fault(text, offset).after(end - parts.len()));
        }
        rest = others;
    }
    match texts {
        Some(_) => Ok(()),
        None => Err(Fault {
            offset: end,
            kind: FaultKind::Missing,
        }),
    }
}
