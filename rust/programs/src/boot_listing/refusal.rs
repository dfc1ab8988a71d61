// @generated from proved source. It is not edited.

//! The line that says why the input was refused.

use crate::boot_listing::command::Form;
use crate::support::alloc::AllocError;

/// Appends the line of a refusal, by its fault.
pub(crate) fn push_refusal(
    text: &mut String,
    form: Form,
    fault: &str,
) -> Result<(), AllocError> {
    match form {
        Form::Lines => fallible_writeln!(text, "{fault}"),
        Form::Json => fallible_writeln!(text, "{{\"fault\":\"{fault}\"}}"),
    }
}
