// @generated from proved source. It is not edited.

//! Whether the digests of an event are the hash of what its type measures.
//!
//! Begin with [`check_entries`], which returns what is found of all events of a log. [`check`] returns
//! what is found of one.

pub use self::counts::TypeCounts;
use self::form::may_describe;
pub use self::form::{Form, forms_of};
use self::measured::{command_in, narrowed, without_nul};
pub(crate) use self::result::CheckedEntry;
pub use self::result::{CheckResult, Mismatch, check_entries};
use uefi_formats::pcr::{Bank, has_digest, is_hash_of};
use crate::support::alloc::AllocError;
use uefi_formats::proto::tcg::content::VariableData;
use uefi_formats::proto::tcg::{EventType, LogEvent};

mod counts;
mod form;
mod measured;
mod result;

/// What the digests of an event say of its data.
#[derive(Clone, Copy, PartialEq, Eq, Debug)]
pub enum Checked {
    /// They are the hash of what the data are in this form, the first of those of the event's type
    /// that matches.
    Matches(Form),
    /// They are that of none of the forms of the event's type.
    MatchesNone,
    /// The log doesn't have what was measured.
    NotInLog,
}

/// Returns whether the digests of an event are the hash of what its type measures, and in which of
/// the type's forms. An event matches if each of its digests does that is of a bank in
/// [`Bank::ALL`], and it has one.
///
/// An event that matches in none of the forms may measure something else than its data, which the
/// log doesn't have: a file that a text of `EV_IPL` names, what the data of `EV_EVENT_TAG` name,
/// such as the initial RAM disk that Linux's stub measures, or what firmware describes, such as
/// OVMF's tables in events of `EV_PLATFORM_CONFIG_FLAGS`.
///
/// # Errors
///
/// [`AllocError`] if an allocation fails.
pub fn check(event: &LogEvent<'_>) -> Result<Checked, AllocError> {
    let forms = forms_of(event.event_type());
    if let Some(form) = first_match(event, forms)? {
        return Ok(Checked::Matches(form));
    }
    if forms.is_empty() || may_measure_other(event) {
        return Ok(Checked::NotInLog);
    }
    Ok(Checked::MatchesNone)
}

/// Returns the first form in which an event matches.
fn first_match(
    event: &LogEvent<'_>,
    forms: &[Form],
) -> Result<Option<Form>, AllocError> {
    for form in forms {
        if matches_by(event, *form)? {
            return Ok(Some(*form));
        }
    }
    Ok(None)
}

/// Returns whether the data of an event may describe or name what was measured.
fn may_measure_other(event: &LogEvent<'_>) -> bool {
    may_describe(event.event_type())
        || (event.event_type() == EventType::IPL && command_in(event.event_data()).is_none())
}

/// Returns whether an event's digests are the hash of what its data measure in a form.
fn matches_by(event: &LogEvent<'_>, form: Form) -> Result<bool, AllocError> {
    let data = event.event_data();
    match form {
        Form::Data => Ok(are_hashes(event, data, &[])),
        Form::VariableValue => {
            match VariableData::read(data) {
                Some(variable) => Ok(are_hashes(event, variable.data, &[])),
                None => Ok(false),
            }
        }
        Form::WithoutNul => match without_nul(data) {
            Some(text) => Ok(are_hashes(event, text, &[])),
            None => Ok(false),
        },
        Form::WithNul => Ok(are_hashes(event, data, &[0])),
        Form::Command => match command_in(data) {
            Some(command) => Ok(are_hashes(event, command, &[])),
            None => Ok(false),
        },
        Form::Narrowed => match narrowed(data)? {
            Some(bytes) => Ok(are_hashes(event, bytes.as_slice(), &[])),
            None => Ok(false),
        },
    }
}

/// Returns whether an event has digests of banks that can be replayed, and each is the hash of
/// these two parts, one after the other.
pub(crate) fn are_hashes(event: &LogEvent<'_>, first: &[u8], second: &[u8]) -> bool {
    has_digests(event) && all_agree(event, first, second)
}

/// Returns whether an event has a digest of a bank that can be replayed.
fn has_digests(event: &LogEvent<'_>) -> bool {
    Bank::ALL.iter().any(|bank| has_digest(*bank, event))
}

/// Returns whether each digest that an event has of a bank that can be replayed is the hash of
/// these two parts.
fn all_agree(event: &LogEvent<'_>, first: &[u8], second: &[u8]) -> bool {
    Bank::ALL.iter().all(|bank| !has_digest(*bank, event)
        || is_hash_of(*bank, event, first, second))
}
