// @generated from proved source. It is not edited.

use crate::shown::ShownName;
use crate::support::alloc::AllocError;
use crate::uefi_audits::trailing::Trailing;

/// Appends the line that says how much padding follows the last event of a log, or how many other bytes
/// do, and where; nothing, if none follow.
///
/// # Errors
///
/// [`AllocError`] if an allocation fails. The text may have grown then.
pub fn push_trailing(
    messages: &mut String,
    name: &str,
    trailing: &Trailing,
) -> Result<(), AllocError> {
    push_padding(messages, name, trailing)?;
    push_left_over(messages, name, trailing)
}

/// Appends the line of padding, if there is any.
fn push_padding(
    messages: &mut String,
    name: &str,
    trailing: &Trailing,
) -> Result<(), AllocError> {
    let (count, offset) = (trailing.padding, trailing.offset);
    if count == 0 {
        return Ok(());
    }
    let name = ShownName(name);
    fallible_writeln!(messages,
        "{name}: {count} bytes of padding at offset {offset}"
    )
}

/// Appends the line of bytes that are left over, if there are any.
fn push_left_over(
    messages: &mut String,
    name: &str,
    trailing: &Trailing,
) -> Result<(), AllocError> {
    let (count, offset) = (trailing.left_over, trailing.offset);
    if count == 0 {
        return Ok(());
    }
    let name = ShownName(name);
    fallible_writeln!(messages,
        "{name}: {count} bytes are left over at offset {offset}"
    )
}
