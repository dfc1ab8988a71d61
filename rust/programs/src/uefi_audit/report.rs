// @generated from proved source. It is not edited.

use crate::host::rt::{Eprint, Print};
use crate::support::fallible::*;

use crate::uefi_audit::failure::{Failure, Status};
use crate::uefi_audit::request::Format;
use crate::audit_text::json::{NotJudged, push_unjudged_json};
use crate::support::alloc::AllocError;
use crate::host::io::{self, Write};

/// What a command says of a log, or of two, and what follows from it.
#[derive(Debug)]
pub(crate) struct Report {
    /// What is printed.
    pub text: String,
    /// What standard error is told.
    pub messages: String,
    /// The status of the run, if nothing else is wrong.
    pub status: Status,
}

impl Report {
    /// Returns the report of what can't be judged: these messages, and nothing that is printed.
    pub(crate) fn unjudged(messages: String) -> Report {
        Report {
            text: String::new(),
            messages,
            status: Status::Unjudged,
        }
    }

    /// Returns the report of a log that `verify` doesn't judge: these messages, and in JSON a line that
    /// says why.
    ///
    /// # Errors
    ///
    /// [`AllocError`] if an allocation fails.
    pub(crate) fn unjudged_as(
        messages: String,
        name: &str,
        format: Format,
        why: NotJudged,
    ) -> Result<Report, AllocError> {
        Ok(Report {
            text: unjudged_text(name, format, why)?,
            messages,
            status: Status::Unjudged,
        })
    }

    /// Returns this report of a log that wasn't read as `verify` prints it: in JSON with a line that says
    /// why.
    ///
    /// # Errors
    ///
    /// [`AllocError`] if an allocation fails.
    pub(crate) fn refused_as(
        self,
        name: &str,
        format: Format,
    ) -> Result<Report, AllocError> {
        Ok(Report {
            text: unjudged_text(name, format, NotJudged::TooManyAlgorithms)?,
            messages: self.messages,
            status: self.status,
        })
    }

    /// Returns this report with what another one says after it. The worse status counts.
    ///
    /// # Errors
    ///
    /// [`AllocError`] if an allocation fails.
    pub(crate) fn and(self, other: &Report) -> Result<Report, AllocError> {
        let (mut text, mut messages) = (self.text, self.messages);
        text.fallible_push_str(other.text.as_str())?;
        messages.fallible_push_str(other.messages.as_str())?;
        Ok(Report {
            text,
            messages,
            status: self.status.and(other.status),
        })
    }

    /// Tells standard error, prints the text, and returns the status. If standard error is closed,
    /// the status still tells.
    pub(crate) fn print<R: Print + Eprint>(&self, rt: &R) -> Result<Status, Failure> {
        print_messages(rt, self.messages.as_str());
        print_text(&mut io::writer(rt), self.text.as_str())?;
        Ok(self.status)
    }
}

/// Returns what `verify` prints of a log that it doesn't judge: a line in JSON.
///
/// # Errors
///
/// [`AllocError`] if an allocation fails.
pub(crate) fn unjudged_text(
    name: &str,
    format: Format,
    why: NotJudged,
) -> Result<String, AllocError> {
    let mut text = String::new();
    match format {
        Format::Text => {}
        Format::Json => push_unjudged_json(&mut text, name, why)?,
    }
    Ok(text)
}

/// Writes messages to standard error, if there are any.
fn print_messages<R: Eprint>(rt: &R, messages: &str) {
    if !messages.is_empty() {
        let _ = fallible_eprint!(rt, "{messages}");
    }
}

/// Writes a text to its end.
fn print_text<W: Write>(out: &mut W, text: &str) -> Result<(), Failure> {
    match out.write_all(text.as_bytes()) {
        Ok(()) => Ok(()),
        Err(cause) => Err(Failure::Output(cause)),
    }
}
