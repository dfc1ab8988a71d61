// @generated from proved source. It is not edited.

//! The rules for an event's place, by its PCR, its type, and what came before it.

use super::types::{types_after_separator, types_in, types_of_bios};
use crate::uefi_audits::check::{Checked, CheckedEntry};
use uefi_formats::proto::tcg::EventType;

/// A rule for an event's place in a log (TCG PC Client Platform Firmware Profile 1.06, 3.3.4 and
/// 10.4.1).
#[derive(Clone, Copy, PartialEq, Eq, Debug)]
pub enum Rule {
    /// PCR 0 to 7 have one separator each.
    SecondSeparator,
    /// The data of their separators are 0 or 0xFFFFFFFF, in four bytes.
    SeparatorValue,
    /// Events of other types than [`types_in`] returns don't extend them, nor PCR 8 others than `EV_IPL`.
    OtherType,
    /// After the separator, events of other types than [`types_after_separator`] returns don't either.
    AfterSeparator,
    /// The data of events of PCR 7 and 8 are what was measured.
    Unlogged,
}

/// The number of PCRs of firmware, 0 to 7.
pub(super) const FIRMWARE_PCRS: u32 = 8;

/// The number of PCRs whose events are judged: those of firmware, and PCR 8, which has GRUB's commands.
pub(super) const JUDGED_PCRS: u32 = 9;

/// Returns the rule that an event of PCR 0 to 8 breaks, the first one, if it is of this PCR.
/// `is_of_bios` says whether its log is that of a BIOS, and `is_separated` whether the PCR's separator
/// comes before it.
pub(super) fn rule_at(
    pcr: u32,
    is_of_bios: bool,
    is_separated: bool,
    it: &CheckedEntry<'_>,
) -> Option<Rule> {
    if it.pcr() != pcr || it.has_type(EventType::NO_ACTION) {
        return None;
    }
    if it.pcr() < FIRMWARE_PCRS {
        return firmware_rule(is_of_bios, is_separated, it);
    }
    command_rule(is_of_bios, it)
}

/// Returns the rule that an event of PCR 0 to 7 breaks.
fn firmware_rule(is_of_bios: bool, is_separated: bool, it: &CheckedEntry<'_>) -> Option<Rule> {
    if it.has_type(EventType::SEPARATOR) {
        return separator_rule(is_separated, it.entry.event.event_data());
    }
    if !is_of_type(types_in(it.pcr()), it) {
        return Some(Rule::OtherType);
    }
    if is_separated && !may_follow(is_of_bios, it) {
        return Some(Rule::AfterSeparator);
    }
    if it.pcr() == 7 && it.checked == Some(Checked::NotInLog) {
        return Some(Rule::Unlogged);
    }
    None
}

/// Returns the rule that a separator of PCR 0 to 7 breaks.
fn separator_rule(is_separated: bool, bytes: &[u8]) -> Option<Rule> {
    if is_separated {
        return Some(Rule::SecondSeparator);
    }
    if bytes == [0; 4].as_slice() || bytes == [0xff; 4].as_slice() {
        return None;
    }
    Some(Rule::SeparatorValue)
}

/// Returns whether an event may follow the separator of its PCR.
fn may_follow(is_of_bios: bool, it: &CheckedEntry<'_>) -> bool {
    is_of_type(types_after_separator(it.pcr()), it)
        || (is_of_bios && is_of_type(types_of_bios(), it))
}

/// Returns whether an event is of one of these types.
fn is_of_type(types: &[EventType], it: &CheckedEntry<'_>) -> bool {
    types.contains(&it.entry.event.event_type())
}

/// Returns the rule that an event of PCR 8 breaks. In the log of a BIOS that is of `EV_IPL` alone.
/// Elsewhere PCR 8 has no other type.
fn command_rule(is_of_bios: bool, it: &CheckedEntry<'_>) -> Option<Rule> {
    if !it.has_type(EventType::IPL) {
        return if is_of_bios {
            None
        } else {
            Some(Rule::OtherType)
        };
    }
    if it.checked == Some(Checked::NotInLog) {
        return Some(Rule::Unlogged);
    }
    None
}
