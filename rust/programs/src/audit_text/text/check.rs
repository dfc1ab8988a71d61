// @generated from proved source. It is not edited.

//! The lines of what was checked.

use crate::support::fallible::*;

use super::out_of_place::push_remarks;
use crate::audit_text::words::{form_name, push_type};
use crate::shown::ShownName;
use crate::support::alloc::AllocError;
use crate::uefi_audits::check::{CheckResult, Form, Mismatch, TypeCounts};

/// Appends what was found of the events of a log: a line for each that matches in none of its type's
/// forms, for each that is out of place, and for the PCRs without a separator, and then one for each
/// type of the events, in the order of the types' numbers. The name is that of the log's file.
///
///
/// A type without a name is its number, as `0x80000011`. Where not all events of a type are covered,
/// `, 2 not covered` ends its line.
///
/// # Errors
///
/// [`AllocError`] if an allocation fails. The text may have grown then.
pub fn push_check(
    text: &mut String,
    name: &str,
    found: &CheckResult<'_>,
) -> Result<(), AllocError> {
    push_mismatches(text, name, found.mismatches.as_slice())?;
    push_remarks(text, name, &found.remarks)?;
    for counts in &found.types {
        push_counts(text, counts)?;
    }
    Ok(())
}

/// Appends a line for each event that matches in none of its type's forms.
fn push_mismatches(
    text: &mut String,
    name: &str,
    mismatches: &[Mismatch<'_>],
) -> Result<(), AllocError> {
    for mismatch in mismatches {
        push_mismatch(text, name, mismatch)?;
    }
    Ok(())
}

/// Appends the line of an event that matches in none of its type's forms.
fn push_mismatch(
    text: &mut String,
    name: &str,
    mismatch: &Mismatch<'_>,
) -> Result<(), AllocError> {
    let (name, index, entry) = (ShownName(name), mismatch.index, &mismatch.entry);
    let offset = entry.offset;
    fallible_write!(text, "{name}: event {index} at offset {offset} (")?;
    push_type(text, entry.event.event_type())?;
    let pcr = entry.event.pcr_index().0;
    fallible_writeln!(text,
        ", PCR {pcr}) matches in none of the forms of its type"
    )
}

/// Appends the line of a type.
fn push_counts(text: &mut String, counts: &TypeCounts) -> Result<(), AllocError> {
    push_type(text, counts.event_type)?;
    let matches = counts.matches;
    fallible_write!(text, ": {matches} match")?;
    push_forms(text, counts)?;
    let (none, outside) = (counts.matches_none, counts.not_in_log);
    fallible_write!(text, ", {none} don't match, {outside} not in the log")?;
    push_uncovered(text, counts.not_covered)
}

/// Appends the end of a type's line: how many of its events aren't covered, if any isn't.
fn push_uncovered(text: &mut String, count: u64) -> Result<(), AllocError> {
    if count == 0 {
        return text.fallible_push_str("\n");
    }
    fallible_writeln!(text, ", {count} not covered")
}

/// Appends in parentheses how many events match in each form, if any matches.
fn push_forms(text: &mut String, counts: &TypeCounts) -> Result<(), AllocError> {
    let mut any = false;
    for form in Form::ALL {
        any = push_form(text, any, counts.matching_in(form), form)?;
    }
    if any {
        text.fallible_push(')')?;
    }
    Ok(())
}

/// Appends how many events match in a form, if any does. Returns whether any does in this form or
/// in one before it.
fn push_form(
    text: &mut String,
    any: bool,
    count: u64,
    form: Form,
) -> Result<bool, AllocError> {
    if count == 0 {
        return Ok(any);
    }
    let before = if any { ", " } else { " (" };
    let name = form_name(form);
    fallible_write!(text, "{before}{count} {name}")?;
    Ok(true)
}
