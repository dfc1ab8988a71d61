// @generated from proved source. It is not edited.

use crate::uefi_audit::checking::check_report;
use crate::uefi_audit::events::events_report;
use crate::uefi_audit::log_file::Opened;
use crate::uefi_audit::replay::{Asked, replay_report};
use crate::uefi_audit::report::Report;
use crate::uefi_audit::request::{Format, Reading};
use crate::support::alloc::AllocError;
use crate::uefi_audits::verify::NamedPcr;

/// What is done with each of many logs.
#[derive(Clone, Copy, Debug)]
pub(crate) enum Task<'a> {
    /// Its events are printed.
    Events(Format),
    /// The PCRs that it leads to are.
    Replay(Asked),
    /// The events whose digests match nothing are. These PCRs are covered, or all.
    Check(Option<&'a [NamedPcr]>, Format),
}

/// Returns what a task prints of a log.
///
/// # Errors
///
/// [`AllocError`] if an allocation fails.
pub(crate) fn task_report(
    log: Opened<'_>,
    reading: Reading,
    task: Task<'_>,
) -> Result<Report, AllocError> {
    let file = match log {
        Opened::Read(file) => file,
        Opened::Refused(report) => return Ok(report),
    };
    match task {
        Task::Events(format) => events_report(&file, reading, format),
        Task::Replay(asked) => replay_report(&file, reading, asked),
        Task::Check(covered, format) => check_report(&file, reading, covered, format),
    }
}
