// @generated from proved source. It is not edited.

use crate::uefi_audits::check::Form;

/// Returns the name of a form of what an event measures.
pub(crate) fn form_name(form: Form) -> &'static str {
    match form {
        Form::Data => "data",
        Form::VariableValue => "variable value",
        Form::WithoutNul => "without NUL",
        Form::WithNul => "with NUL",
        Form::Command => "command",
        Form::Narrowed => "narrowed",
    }
}
