// @generated from proved source. It is not edited.

//! The events of a log that are out of place, and the PCRs of firmware without a separator.
//!
//! A digest covers what was measured, and neither an event's type nor its place among those of other
//! PCRs. Whoever controls a machine can extend PCRs further, and relabel what the log has. Where a
//! relabelled event can't be, [`Remarks`] has it.

use crate::support::fallible::*;

pub use self::rule::Rule;
use self::rule::{FIRMWARE_PCRS, JUDGED_PCRS, rule_at};
pub use self::types::{types_after_separator, types_in, types_of_bios};
use crate::uefi_audits::check::CheckedEntry;
use uefi_formats::pcr::{Bank, is_hash_of};
use crate::support::alloc::AllocError;
use uefi_formats::proto::tcg::{EventType, LogEntry, LogEvent};

mod rule;
mod types;

/// The highest number of a register of confidential computing (UEFI 2.10, 38.4.1).
const LAST_REGISTER: u32 = 4;

/// An event that is out of place.
#[derive(Clone, Copy, Debug)]
pub struct OutOfPlace<'a> {
    /// Its index in the log: 0 for the first one.
    pub index: usize,
    /// The event with its offset.
    pub entry: LogEntry<'a>,
    /// The rule that it breaks, the first one.
    pub rule: Rule,
}

/// The remarks on the places of a log's events.
///
/// There are none on a log of confidential computing, whose registers aren't PCRs. Such a log has its
/// `Exit Boot Services Invocation` in register 2, and extends no register above 4 (UEFI 2.10, 38.4.1).
/// One that ends before that can't be told from a log of PCRs.
#[derive(Debug)]
pub struct Remarks<'a> {
    /// The events that are out of place, by PCR, and of a PCR in order.
    pub events: Vec<OutOfPlace<'a>>,
    /// The PCRs of 0 to 7 without a separator, in order.
    pub unseparated: Vec<u32>,
    /// Whether the boot got as far as `Exit Boot Services Invocation`: a digest of an event of PCR 5 is
    /// the hash of this text. Else the log may end before a separator.
    pub has_exited: bool,
}

impl Remarks<'_> {
    /// Returns whether the remarks count against the log: there are some, and the boot got as far as
    /// `Exit Boot Services Invocation`.
    pub fn are_faults(&self) -> bool {
        self.has_exited && (!self.events.is_empty() || !self.unseparated.is_empty())
    }
}

/// Returns the remarks on the places of these events; none if the log is of confidential computing.
pub(crate) fn remarks_on<'a>(
    all: &[CheckedEntry<'a>],
) -> Result<Remarks<'a>, AllocError> {
    if has_exit(all, 2) && !has_pcr_above_registers(all) {
        return Ok(Remarks {
            events: Vec::new(),
            unseparated: Vec::new(),
            has_exited: false,
        });
    }
    let events = misplaced(all)?;
    let unseparated = without_separator(all)?;
    Ok(Remarks {
        events,
        unseparated,
        has_exited: has_exit(all, 5),
    })
}

/// Returns whether an event extends a PCR whose number no register of confidential computing has.
fn has_pcr_above_registers(all: &[CheckedEntry<'_>]) -> bool {
    all.iter().any(|it| it.pcr() > LAST_REGISTER && !it.has_type(EventType::NO_ACTION))
}

/// Returns whether an event of a PCR says that the operating system takes over.
fn has_exit(all: &[CheckedEntry<'_>], pcr: u32) -> bool {
    all.iter()
        .any(|it| it.pcr() == pcr && is_exit(&it.entry.event))
}

/// Returns whether an event's digest of some bank says so.
fn is_exit(event: &LogEvent<'_>) -> bool {
    Bank::ALL.iter().any(|bank| is_exit_in(*bank, event))
}

/// Returns whether an event's digest of a bank is the hash of `Exit Boot Services Invocation`.
fn is_exit_in(bank: Bank, event: &LogEvent<'_>) -> bool {
    is_hash_of(bank, event, b"Exit Boot Services Invocation", &[])
}

/// Returns the PCRs of firmware without a separator.
fn without_separator(
    all: &[CheckedEntry<'_>],
) -> Result<Vec<u32>, AllocError> {
    (0..FIRMWARE_PCRS)
        .filter(|pcr| !has_separator(all, *pcr))
        .fallible_collect()
}

/// Returns whether a PCR has a separator.
fn has_separator(all: &[CheckedEntry<'_>], pcr: u32) -> bool {
    all.iter().any(|it| separates(pcr, it))
}

/// Returns whether an event is a PCR's separator.
fn separates(pcr: u32, it: &CheckedEntry<'_>) -> bool {
    it.pcr() == pcr && it.has_type(EventType::SEPARATOR)
}

/// Returns the events of PCR 0 to 8 that are out of place. A log without an event of UEFI is that of a
/// BIOS.
fn misplaced<'a>(
    all: &[CheckedEntry<'a>],
) -> Result<Vec<OutOfPlace<'a>>, AllocError> {
    let first_of_uefi = EventType::EFI_EVENT_BASE.0;
    let is_of_bios = !all
        .iter()
        .any(|it| it.entry.event.event_type().0 >= first_of_uefi);
    let mut found = Vec::new();
    for pcr in 0..JUDGED_PCRS {
        push_misplaced(&mut found, all, is_of_bios, pcr)?;
    }
    Ok(found)
}

/// Appends the events of a PCR that are out of place.
fn push_misplaced<'a>(
    found: &mut Vec<OutOfPlace<'a>>,
    all: &[CheckedEntry<'a>],
    is_of_bios: bool,
    pcr: u32,
) -> Result<(), AllocError> {
    let mut is_separated = false;
    for index in 0..all.len() {
        let it = &all[index];
        let rule = rule_at(pcr, is_of_bios, is_separated, it);
        push_if_broken(found, index, &it.entry, rule)?;
        is_separated |= separates(pcr, it);
    }
    Ok(())
}

/// Appends an event, if it breaks a rule.
fn push_if_broken<'a>(
    found: &mut Vec<OutOfPlace<'a>>,
    index: usize,
    entry: &LogEntry<'a>,
    rule: Option<Rule>,
) -> Result<(), AllocError> {
    let Some(rule) = rule else {
        return Ok(());
    };
    let entry = *entry;
    found.fallible_push(OutOfPlace { index, entry, rule })?;
    Ok(())
}
