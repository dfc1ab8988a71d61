// @generated from proved source. It is not edited.

//! A name and arguments, read by the forms of the name.

use crate::formats::uefi_path_text::form::NodeForm;
use crate::formats::uefi_path_text::forms::sections;
use crate::formats::uefi_path_text::parse::call::Call;
use crate::formats::uefi_path_text::parse::fault::Fault;

/// What forms make of a name and arguments.
#[derive(Clone, Copy, Debug)]
pub(crate) enum Reading<'a> {
    /// No form has the name.
    Unknown,
    /// The arguments are those of no form of the name.
    Wrong(Fault),
    /// The node by the first form that the arguments fit.
    Node(Call<'a>),
}

impl<'a> Reading<'a> {
    /// Tries the forms of a name too, if none fitted before.
    #[inline]
    fn or(self, forms: &'static [NodeForm], name: &[u8], arguments: &'a [u8]) -> Reading<'a> {
        let mut reading = self;
        for form in forms {
            reading = reading.or_form(form, name, arguments);
        }
        reading
    }

    /// Tries a form, if none fitted before and it has the name.
    #[inline]
    fn or_form(self, form: &'static NodeForm, name: &[u8], arguments: &'a [u8]) -> Reading<'a> {
        if form.name.as_bytes() != name {
            return self;
        }
        if let Reading::Node(_) = self {
            return self;
        }
        match Call::new(form, arguments) {
            Ok(call) => Reading::Node(call),
            Err(fault) => Reading::Wrong(self.farther(fault)),
        }
    }

    /// Returns the fault, or the one before if that is farther.
    #[inline]
    fn farther(&self, fault: Fault) -> Fault {
        match self {
            Reading::Wrong(before) => before.or_farther(fault),
            _ => fault,
        }
    }
}

/// Reads a name and arguments by all forms.
#[inline]
pub(crate) fn read_call<'a>(name: &[u8], arguments: &'a [u8]) -> Reading<'a> {
    let mut reading = Reading::Unknown;
    for section in sections() {
        reading = reading.or(section.forms(), name, arguments);
    }
    reading
}
