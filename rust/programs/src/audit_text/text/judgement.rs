// @generated from proved source. It is not edited.

use crate::audit_text::text::trailing::push_trailing;
use crate::shown::ShownName;
use crate::support::alloc::AllocError;
use crate::uefi_audits::judgement::Judgement;
use crate::uefi_audits::trailing::Trailing;

/// Appends what is said of a log before its events are read: what follows its last event, and why it
/// can't be judged, unless that says it.
///
/// # Errors
///
/// [`AllocError`] if an allocation fails. The text may have grown then.
pub fn push_judgement(
    messages: &mut String,
    name: &str,
    judgement: Judgement,
    trailing: &Trailing,
) -> Result<(), AllocError> {
    match judgement {
        Judgement::LeftOver | Judgement::Accepted => push_trailing(messages, name, trailing),
        Judgement::NothingMeasured => {
            push_trailing(messages, name, trailing)?;
            push_nothing(messages, name, trailing)
        }
    }
}

/// Appends the line of a log whose header has more algorithms than are allowed: how many it has, and how
/// many are.
///
/// # Errors
///
/// [`AllocError`] if an allocation fails. The text may have grown then.
pub fn push_many_algorithms(
    messages: &mut String,
    name: &str,
    rows: usize,
    most: u32,
) -> Result<(), AllocError> {
    let name = ShownName(name);
    fallible_writeln!(messages,
        "{name}: its header has {rows} algorithms, and at most {most} are read (--max-rows)"
    )
}

/// Appends the line of a log in which nothing was measured.
fn push_nothing(
    messages: &mut String,
    name: &str,
    trailing: &Trailing,
) -> Result<(), AllocError> {
    let name = ShownName(name);
    if trailing.is_of_empty_log() {
        return fallible_writeln!(messages, "{name}: the log is empty");
    }
    fallible_writeln!(messages, "{name}: nothing was measured")
}
