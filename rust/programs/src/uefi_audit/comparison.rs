// @generated from proved source. It is not edited.

use crate::support::fallible::*;

use crate::uefi_audit::failure::Status;
use crate::uefi_audit::log_file::{LogFile, Opened, judge, judged_status};
use crate::uefi_audit::report::Report;
use crate::uefi_audit::request::{Compared, Format, Reading};
use crate::audit_text::ComparedLogs;
use crate::audit_text::json::push_differences_json;
use crate::audit_text::text::push_differences;
use crate::shown::ShownName;
use crate::support::alloc::AllocError;
use crate::uefi_audits::diff::{ComparedParts, PcrDifference, compared_algorithms, differences};
use uefi_formats::proto::tcg::AlgorithmId;

/// Returns what `diff` prints of two logs. If one of them wasn't read, it is what is said of each.
///
/// # Errors
///
/// [`AllocError`] if an allocation fails.
pub(crate) fn difference_report(
    old: Opened<'_>,
    new: Opened<'_>,
    reading: Reading,
    asked: Compared,
) -> Result<Report, AllocError> {
    match (old, new) {
        (Opened::Read(old), Opened::Read(new)) => {
            comparison_report(&old, &new, reading, asked)
        }
        (old, new) => {
            let of_old = side_report(old, reading)?;
            of_old.and(&side_report(new, reading)?)
        }
    }
}

/// Returns what is said of a log that isn't compared.
fn side_report(log: Opened<'_>, reading: Reading) -> Result<Report, AllocError> {
    match log {
        Opened::Refused(report) => Ok(report),
        Opened::Read(file) => {
            let (judgement, messages) = judge(&file, reading.allow_left_over)?;
            Ok(Report {
                text: String::new(),
                messages,
                status: judged_status(judgement),
            })
        }
    }
}

/// Returns what is printed of how the events of two logs differ.
fn comparison_report(
    old: &LogFile<'_>,
    new: &LogFile<'_>,
    reading: Reading,
    asked: Compared,
) -> Result<Report, AllocError> {
    let (of_old, mut messages) = judge(old, reading.allow_left_over)?;
    let (of_new, others) = judge(new, reading.allow_left_over)?;
    messages.fallible_push_str(others.as_str())?;
    let status = judged_status(of_old).and(judged_status(of_new));
    if !(of_old.is_read() && of_new.is_read()) {
        let text = String::new();
        return Ok(Report {
            text,
            messages,
            status,
        });
    }
    let algorithms = compared_algorithms(&old.read, &new.read, asked.bank)?;
    let algorithms = algorithms.as_slice();
    let parts = parts_of(algorithms, asked.digests_only);
    let found = differences(&parts, &old.read, &new.read)?;
    let logs = ComparedLogs {
        old_name: old.name,
        new_name: new.name,
        algorithms,
    };
    let text = difference_text(asked.format, &logs, found.as_slice())?;
    let status = status.and(compared_status(algorithms, found.as_slice()));
    Ok(Report {
        text,
        messages,
        status,
    })
}

/// Returns which parts of events are compared: the digests of these algorithms, and the data, unless
/// digests alone are asked for, and there are some that are compared.
fn parts_of(algorithms: &[AlgorithmId], digests_only: bool) -> ComparedParts<'_> {
    ComparedParts {
        algorithms,
        with_data: !digests_only || algorithms.is_empty(),
    }
}

/// Returns the status: whether there are differences, or no digests that are compared.
fn compared_status(algorithms: &[AlgorithmId], differences: &[PcrDifference<'_>]) -> Status {
    if algorithms.is_empty() {
        return Status::Unjudged;
    }
    if differences.is_empty() {
        return Status::Well;
    }
    Status::Differs
}

/// Returns what is printed of how the events of two logs differ.
fn difference_text(
    format: Format,
    logs: &ComparedLogs<'_>,
    differences: &[PcrDifference<'_>],
) -> Result<String, AllocError> {
    let mut text = String::new();
    match format {
        Format::Text => {
            let (old_name, new_name) = (
                shown_name(logs.old_name)?,
                shown_name(logs.new_name)?,
            );
            let logs = ComparedLogs {
                old_name: old_name.as_str(),
                new_name: new_name.as_str(),
                algorithms: logs.algorithms,
            };
            push_differences(&mut text, &logs, differences)?;
        }
        Format::Json => push_differences_json(&mut text, logs, differences)?,
    }
    Ok(text)
}

/// Returns a file's name as it is printed.
fn shown_name(name: &str) -> Result<String, AllocError> {
    let name = ShownName(name);
    fallible_format!("{name}")
}
