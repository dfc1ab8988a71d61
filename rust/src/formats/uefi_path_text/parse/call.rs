// @generated from proved source. It is not edited.

//! A node's text with arguments.

use crate::formats::uefi_path_text::form::{Arguments, NodeForm, Parameter, Source};
use crate::formats::uefi_path_text::parse::check::check;
use crate::formats::uefi_path_text::parse::data::{GREATEST_DATA, Listed};
use crate::formats::uefi_path_text::parse::excess::excess;
use crate::formats::uefi_path_text::parse::fault::{Fault, FaultKind};
use crate::formats::uefi_path_text::parse::repeated::{put_repeated, repeated_len};
use crate::formats::uefi_base::buffer::put;
use crate::formats::uefi_path::{DeviceSubType, DeviceType};

/// A node's text with arguments, in a form that they have.
#[derive(Clone, Copy)]
pub(crate) struct Call<'a> {
    /// The form.
    form: &'static NodeForm,
    /// The texts of the arguments, with commas between them; `None` if there are none.
    texts: Option<&'a [u8]>,
}

impl core::fmt::Debug for Call<'_> {
    fn fmt(&self, f: &mut core::fmt::Formatter<'_>) -> core::fmt::Result {
        f.debug_struct("Call")
            .field("form", &self.form)
            .field("texts", &self.texts.map(crate::support::debug::Bytes))
            .finish()
    }
}

impl<'a> Call<'a> {
    /// Reads arguments in a form.
    ///
    /// # Errors
    ///
    /// The first fault of the arguments.
    #[inline]
    pub(crate) fn new(form: &'static NodeForm, arguments: &'a [u8]) -> Result<Call<'a>, Fault> {
        let texts = if arguments.is_empty() {
            None
        } else {
            Some(arguments)
        };
        if let Err(fault) = check(&form.arguments, texts, arguments.len()) {
            return Err(fault.or_excess(excess(&form.arguments, texts, arguments.len())));
        }
        let call = Call { form, texts };
        let Some(size) = call.data_len() else {
            return Err(Fault {
                offset: excess(&form.arguments, texts, arguments.len()),
                kind: FaultKind::TooLong,
            });
        };
        if size == 0 && call.is_end() {
            return Err(Fault {
                offset: arguments.len(),
                kind: FaultKind::Argument,
            });
        }
        Ok(call)
    }

    /// Returns the values of arguments that are listed.
    #[inline]
    fn listed(&self, parameters: &'static [Parameter]) -> Listed<'a> {
        Listed {
            parameters,
            texts: self.texts,
        }
    }

    /// Returns a type or a subtype.
    #[inline]
    fn number(&self, source: &Source) -> u8 {
        match (source, self.form.arguments) {
            (Source::Known(number), _) => *number,
            (Source::Stated(index), Arguments::Listed(parameters, _)) => self
                .listed(parameters)
                .byte(*index),
            (Source::Stated(_), Arguments::Repeated(_, _)) => 0,
        }
    }

    /// Returns the length of the data, or `None` if no node has so many bytes.
    #[inline]
    pub(crate) fn data_len(&self) -> Option<usize> {
        match self.form.arguments {
            Arguments::Listed(parameters, parts) => self.listed(parameters).len(parts),
            Arguments::Repeated(prefix, kind) => with_prefix(
                prefix,
                repeated_len(kind, self.texts),
            ),
        }
    }

    /// Writes the data at an offset.
    #[inline]
    pub(crate) fn put_data(&self, buffer: &mut [u8], offset: usize) {
        match self.form.arguments {
            Arguments::Listed(parameters, parts) => self
                .listed(parameters)
                .put(buffer, offset, parts),
            Arguments::Repeated(prefix, kind) => {
                put(buffer, offset, prefix);
                put_repeated(buffer, offset + prefix.len(), kind, self.texts);
            }
        }
    }

    /// Returns the type and the subtype.
    #[inline]
    pub(crate) fn full_type(&self) -> (DeviceType, DeviceSubType) {
        (
            DeviceType(self.number(&self.form.device_type)),
            DeviceSubType(self.number(&self.form.sub_type)),
        )
    }

    /// Returns whether the node has the type END and a known subtype.
    #[inline]
    fn is_end(&self) -> bool {
        let (device_type, sub_type) = self.full_type();
        device_type == DeviceType::END
            && (sub_type == DeviceSubType::END_INSTANCE || sub_type == DeviceSubType::END_ENTIRE)
    }
}

/// Returns the length of bytes and of what follows them, or `None` if no node has so many.
#[inline]
fn with_prefix(prefix: &[u8], others: Option<usize>) -> Option<usize> {
    let size = prefix.len().checked_add(others?)?;
    if size > GREATEST_DATA {
        None
    } else {
        Some(size)
    }
}
