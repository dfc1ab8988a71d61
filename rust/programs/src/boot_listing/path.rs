// @generated from proved source. It is not edited.

//! What `path` prints of a text, and what it refuses.

use crate::boot_listing::Outcome;
use crate::boot_listing::command::Form;
use crate::boot_listing::refusal::push_refusal;
use crate::shown::Hex;
use crate::support::alloc::AllocError;
use uefi_formats::proto::device_path::text::{FromTextError, from_text_in};

/// Appends a line with the bytes, in hex, of the device path whose text is given (UEFI 2.10, 10.6).
/// In JSON they are `bytes` of an object.
///
/// # Errors
///
/// [`AllocError`] if an allocation fails. The text may have grown then.
pub fn push_path_listing(
    text: &mut String,
    form: Form,
    path: &str,
) -> Result<Outcome, AllocError> {
    match from_text_in(path) {
        Ok(path) => {
            push_bytes(text, form, path.as_path().as_bytes())?;
            Ok(Outcome::Listed)
        }
        Err(error) => {
            push_error(text, form, error)?;
            Ok(Outcome::Refused)
        }
    }
}

/// Appends the line of a path's bytes.
fn push_bytes(
    text: &mut String,
    form: Form,
    bytes: &[u8],
) -> Result<(), AllocError> {
    let bytes = Hex(bytes);
    match form {
        Form::Lines => fallible_writeln!(text, "{bytes}"),
        Form::Json => fallible_writeln!(text, "{{\"bytes\":\"{bytes}\"}}"),
    }
}

/// Appends the line of a refusal. Running out of memory is none, and is returned.
fn push_error(
    text: &mut String,
    form: Form,
    error: FromTextError,
) -> Result<(), AllocError> {
    match error {
        FromTextError::UnknownNode(_) => push_refusal(text, form, "refused UnknownNode"),
        FromTextError::Argument(_) => push_refusal(text, form, "refused Argument"),
        FromTextError::Missing(_) => push_refusal(text, form, "refused Missing"),
        FromTextError::TooLong(_) => push_refusal(text, form, "refused TooLong"),
        FromTextError::Buffer(_) => push_refusal(text, form, "refused Buffer"),
        FromTextError::Memory => Err(AllocError),
        _ => unreachable!(),
    }
}
