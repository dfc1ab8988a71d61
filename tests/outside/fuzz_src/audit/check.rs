//! Which digests are the hash of what an event's type measures (docs/AUDIT.md).

use super::events::variable_parts;
use super::log::{Event, IPL, Log, kind_name};
use super::replay::BANKS;
use crate::program::Ending;
use std::collections::BTreeMap;

/// The forms, in the order in which a summary names them.
const FORMS: [&str; 6] =
    ["data", "variable value", "without NUL", "with NUL", "command", "narrowed"];
/// What a summary says of other events.
const NONE: &str = "don't match";
const OUTSIDE: &str = "not in the log";

/// The types whose data may only describe what was measured.
const DESCRIBING: [u32; 8] =
    [0x06, 0x0a, 0x0b, 0x8000_000d, 0x8000_00e1, 0x8000_00e2, 0x8000_00e3, 0x8000_00e4];

/// Whether events of a type measure what the log has.
pub fn has_forms(kind: u32) -> bool {
    let measures_data = matches!(kind, 0x04 | 0x05 | 0x08 | IPL | 0x12 | 0x8000_0001 | 0x8000_0002);
    let is_other = matches!(kind, 0x8000_0006 | 0x8000_0007 | 0x8000_000c | 0x8000_00e0);
    measures_data || is_other || DESCRIBING.contains(&kind)
}

/// What an event measures in a form, if its type has that.
fn measured(event: &Event<'_>, form: &str) -> Option<Vec<u8>> {
    let data = event.data;
    match (event.kind, form) {
        (kind, "data") if has_forms(kind) => Some(data.to_vec()),
        (0x8000_0002 | 0x8000_000c, "variable value") => Some(variable_parts(data)?.2.to_vec()),
        (IPL, "without NUL") => data.strip_suffix(&[0]).map(Vec::from),
        (IPL, "with NUL") => Some([data, &[0]].concat()),
        (IPL, "command") => {
            let text = data.strip_suffix(&[0])?;
            let prefixes = [&b"grub_cmd: "[..], b"kernel_cmdline: ", b"module_cmdline: "];
            prefixes.iter().find_map(|prefix| text.strip_prefix(*prefix)).map(Vec::from)
        }
        (IPL, "narrowed") => {
            let (units, []) = data.as_chunks() else { return None };
            units.iter().map(|[low, high]| (*high == 0).then_some(*low)).collect()
        }
        _ => None,
    }
}

/// Whether an event has digests of known banks, and each is the hash of a message.
pub fn is_hash_of(event: &Event<'_>, message: &[u8]) -> bool {
    let mut banks = BANKS.iter().filter(|bank| !event.digests_of(bank).is_empty()).peekable();
    banks.peek().is_some() && banks.all(|bank| event.is_hash(bank, message))
}

/// Whether an event has digests of known banks, and each is the hash of what it measures in a form.
fn matches(event: &Event<'_>, form: &str) -> bool {
    measured(event, form).is_some_and(|message| is_hash_of(event, &message))
}

/// A line for each event that matches in no form, and the summary.
pub fn lines(log: &Log<'_>, end: &mut Ending) -> String {
    let (mut lines, mut types) = (String::new(), BTreeMap::<u32, Vec<&str>>::new());
    for event in &log.events {
        let kind = event.kind;
        let lacks = |form| measured(event, form).is_none();
        let form = match FORMS.into_iter().find(|form| matches(event, form)) {
            Some(form) => form,
            None if !has_forms(kind) || DESCRIBING.contains(&kind) => OUTSIDE,
            None if kind == IPL && lacks("command") => OUTSIDE,
            None => NONE,
        };
        types.entry(kind).or_default().push(form);
        if form == NONE {
            let place = format!("{} ({}, PCR {})", event.place(), kind_name(kind), event.pcr);
            lines += &format!("{}: {place} matches in none of the forms of its type\n", log.name);
            end.status = end.status.max(1);
        }
    }
    lines + &types.iter().map(|(kind, found)| summary(*kind, found)).collect::<String>()
}

/// The line of a type, of whose events these forms were found.
fn summary(kind: u32, found: &[&str]) -> String {
    let count = |form: &str| found.iter().filter(|it| **it == form).count();
    let forms = FORMS.iter().filter(|form| count(form) > 0);
    let forms: Vec<String> = forms.map(|form| format!("{} {form}", count(form))).collect();
    let forms = if forms.is_empty() { String::new() } else { format!(" ({})", forms.join(", ")) };
    let (kind, none, outside) = (kind_name(kind), count(NONE), count(OUTSIDE));
    let matching = found.len() - none - outside;
    format!("{kind}: {matching} match{forms}, {none} {NONE}, {outside} {OUTSIDE}\n")
}
