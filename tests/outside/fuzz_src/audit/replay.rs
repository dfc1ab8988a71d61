//! The banks, with their hash functions by the system's OpenSSL, and the PCRs that a log leads to.

use super::json::{array, hex, hex_text, text};
use super::log::{Event, HCRTM, Log, NO_ACTION, PCR_COUNT};
use super::{UNJUDGED, tell};
use crate::program::Ending;
use std::collections::BTreeSet;
use std::ffi::{CStr, c_char, c_int, c_void};
use std::ptr::{null, null_mut};

/// A bank that can be replayed.
pub struct Bank {
    pub name: &'static str,
    pub algorithm: u16,
    /// The length of a digest.
    pub size: usize,
    /// The name of the hash function in OpenSSL.
    function: &'static CStr,
}

pub const BANKS: &[Bank] = &[
    Bank { name: "sha1", algorithm: 0x04, size: 20, function: c"SHA1" },
    SHA256,
    Bank { name: "sha384", algorithm: 0x0c, size: 48, function: c"SHA384" },
    Bank { name: "sha512", algorithm: 0x0d, size: 64, function: c"SHA512" },
    Bank { name: "sm3_256", algorithm: 0x12, size: 32, function: c"SM3" },
];
pub const SHA256: Bank = Bank { name: "sha256", algorithm: 0x0b, size: 32, function: c"SHA256" };

#[rustfmt::skip]
unsafe extern "C" {
    fn EVP_Q_digest(
        library: *const c_void, function: *const c_char, properties: *const c_char,
        message: *const u8, length: usize, digest: *mut u8, digest_length: *mut usize,
    ) -> c_int;
}

impl Bank {
    pub fn hash(&self, message: &[u8]) -> Vec<u8> {
        let mut digest = vec![0; self.size];
        let (name, room) = (self.function.as_ptr(), digest.as_mut_ptr());
        let (start, length) = (message.as_ptr(), message.len());
        let done = unsafe { EVP_Q_digest(null(), name, null(), start, length, room, null_mut()) };
        assert_eq!(done, 1, "OpenSSL has no {:?}", self.function);
        digest
    }
}

/// What a PCR holds; or the first event by which it is undetermined, and why.
type Outcome<'a> = Result<Vec<u8>, (&'a Event<'a>, &'static str)>;

/// A bank, the number of a PCR, and what that holds.
type Replayed<'a> = (&'static Bank, u32, Outcome<'a>);

/// What the events of a log lead to in a PCR, which starts at a locality if the log states none.
pub fn replay<'a>(log: &'a Log<'a>, bank: &Bank, pcr: u32, locality: u8) -> Outcome<'a> {
    let is_launched = log.measured().any(|event| (17..23).contains(&event.pcr));
    let start = if (17..23).contains(&pcr) && !is_launched { 0xff } else { 0 };
    let (mut value, locality) = (vec![start; bank.size], log.locality().unwrap_or(locality));
    if pcr == 0 {
        value[bank.size - 1] = locality;
    }
    let mut is_extended = false;
    for event in log.events.iter().filter(|event| event.pcr == pcr) {
        let fault = match (event.stated().filter(|_| pcr == 0), &event.digests_of(bank)[..]) {
            (Some(it), _) if ![0, 3, 4].contains(&it) => "states a locality other than 0, 3 and 4",
            (Some(it), _) if it != locality => "states another locality than PCR 0 starts at",
            (Some(_), _) if is_extended => "states the locality after PCR 0 was extended",
            _ if event.kind == NO_ACTION => continue,
            (_, []) => "has no digest of the bank",
            (_, [digest]) if digest.len() == bank.size => {
                value = bank.hash(&[&value, *digest].concat());
                is_extended |= event.kind != HCRTM;
                continue;
            }
            (_, [_]) => "has a digest of another length",
            _ => "has two digests of the bank or more",
        };
        return Err((event, fault));
    }
    Ok(value)
}

/// Tells at which locality PCR 0 starts, if the log states none.
pub fn tell_of_start(log: &Log<'_>, locality: u8, end: &mut Ending) {
    if log.locality().is_none() {
        let what = format!("states no locality; PCR 0 starts at locality {locality}");
        tell(end, log, 0, &what);
    }
}

/// The PCRs of each active bank, about which standard error is told.
pub fn replays<'a>(log: &'a Log<'a>, end: &mut Ending) -> Vec<Replayed<'a>> {
    tell_of_start(log, 0, end);
    let mut found: Vec<Replayed<'_>> = Vec::new();
    for bank in BANKS {
        if log.is_active(bank) {
            found.extend((0..PCR_COUNT).map(|pcr| (bank, pcr, replay(log, bank, pcr, 0))));
        } else if log.algorithms.contains(&bank.algorithm) {
            tell(end, log, 0, &format!("no event has a digest of the bank {}", bank.name));
        }
    }
    let is_other = |number: &&u16| BANKS.iter().all(|bank| bank.algorithm != **number);
    let others: BTreeSet<_> = log.algorithms.iter().filter(is_other).collect();
    if !others.is_empty() {
        let others: Vec<_> = others.iter().map(|it| format!("{it:#04x}")).collect();
        tell(end, log, 0, &format!("not supported: the bank of algorithm {}", others.join(", ")));
    }
    if found.is_empty() {
        end.status = UNJUDGED;
    }
    for (Bank { name, .. }, pcr, outcome) in &found {
        let Err((event, fault)) = outcome else { continue };
        let what = format!("{name}: PCR {pcr} is undetermined: {} {fault}", event.place());
        tell(end, log, UNJUDGED, &what);
    }
    tell_of_ignored(log, end);
    found
}

/// Tells of the events that have no effect and should have.
pub fn tell_of_ignored(log: &Log<'_>, end: &mut Ending) {
    for event in &log.events {
        let (place, pcr) = (event.place(), event.pcr);
        if event.kind != NO_ACTION && pcr >= PCR_COUNT {
            tell(end, log, 1, &format!("{place} is of PCR {pcr}, which no TPM has"));
        } else if pcr != 0 && event.stated().is_some() {
            tell(end, log, 0, &format!("{place} states the locality, and isn't of PCR 0"));
        }
    }
}

/// The PCRs of each bank as `tpm2_pcrread` prints them.
pub fn listing(found: &[Replayed<'_>]) -> String {
    let line = |(bank, pcr, outcome): &Replayed<'_>| {
        let head = if *pcr == 0 { format!("  {}:\n", bank.name) } else { String::new() };
        let value = outcome.as_ref().map(|value| format!("0x{}", hex(value).to_uppercase()));
        format!("{head}    {pcr:<2}: {}\n", value.unwrap_or("undetermined".to_owned()))
    };
    found.iter().map(line).collect()
}

pub fn json_line(log: &Log<'_>, found: &[Replayed<'_>]) -> String {
    let undetermined = |(_, pcr, outcome): &Replayed<'_>| {
        let (Event { index, offset, .. }, fault) = outcome.as_ref().err()?;
        Some(object!(index, offset, pcr, reason: text(fault)))
    };
    let value = |it: &Replayed<'_>| it.2.as_ref().map_or("null".to_owned(), |it| hex_text(it));
    let bank = |bank: &[Replayed<'_>]| {
        let (algorithm, pcrs) = (text(bank[0].0.name), array(bank.iter().map(value)));
        object!(algorithm, pcrs, undetermined: array(bank.iter().filter_map(undetermined)))
    };
    let rest = object!(count: log.rest, offset: log.end);
    let part = |is_it: bool| if is_it && log.rest > 0 { &rest } else { "null" };
    let (left_over, padding) = (part(!log.is_padded), part(log.is_padded));
    let banks = array(found.chunks(PCR_COUNT as usize).map(bank));
    let locality = object!(number: log.locality().unwrap_or(0), stated: log.locality().is_some());
    let not_replayed = not_replayed(log, found);
    object!(banks, left_over, locality, log: text(log.name), not_replayed, padding) + "\n"
}

/// The algorithms of a log's header whose banks weren't replayed.
fn not_replayed(log: &Log<'_>, found: &[Replayed<'_>]) -> String {
    let is_found = |number: u16| found.iter().any(|it| it.0.algorithm == number);
    let others: BTreeSet<_> = log.algorithms.iter().filter(|it| !is_found(**it)).collect();
    let name = |number: &u16| match BANKS.iter().find(|it| it.algorithm == *number) {
        Some(bank) => text(bank.name),
        None => text(&format!("{number:#04x}")),
    };
    array(others.into_iter().map(name))
}
