//! Quotes of PCRs (TPM 2.0 Library, Part 2, `TPMS_ATTEST` with `TPMS_QUOTE_INFO`), and whether a
//! log leads to the digest of one.

use super::events::algorithm;
use super::json::{array, hex, hex_text, text};
use super::log::{Log, PCR_COUNT};
use super::replay::{BANKS, Bank, replay, tell_of_ignored, tell_of_start};
use super::{MAX_ROWS, UNJUDGED, tell};
use crate::program::Ending;
use std::collections::BTreeSet;

/// The status of a run over a malformed file.
const MALFORMED: i32 = 3;
const GENERATED: u64 = 0xff54_4347;
const QUOTE: u64 = 0x8018;
/// The localities at which PCR 0 may start after a log that states none.
const LOCALITIES: [u8; 3] = [0, 3, 4];

#[derive(Default)]
pub struct Quote<'a> {
    nonce: &'a [u8],
    clock: u64,
    reset_count: u64,
    restart_count: u64,
    is_safe: bool,
    /// The number of an algorithm, and PCRs of its bank.
    selections: Vec<(u16, Vec<u32>)>,
    digest: &'a [u8],
}

/// Bytes of which the first ones are read.
struct Rest<'a>(&'a [u8]);

impl<'a> Rest<'a> {
    fn bytes(&mut self, count: usize) -> Result<&'a [u8], String> {
        let (first, rest) = self.0.split_at_checked(count).ok_or("too few bytes")?;
        self.0 = rest;
        Ok(first)
    }

    fn number(&mut self, width: usize) -> Result<u64, String> {
        Ok(self.bytes(width)?.iter().fold(0, |number, byte| number << 8 | u64::from(*byte)))
    }

    fn sized(&mut self) -> Result<&'a [u8], String> {
        let size = self.number(2)?;
        self.bytes(size as usize)
    }

    fn selection(&mut self) -> Result<(u16, Vec<u32>), String> {
        let (algorithm, size) = (self.number(2)? as u16, self.number(1)? as usize);
        let other = "a selection of PCRs that a PC doesn't have";
        let bitmap = if size > 4 { return Err(other.into()) } else { self.bytes(size)? };
        let is_selected = |pcr: &u32| bitmap[*pcr as usize / 8] >> (pcr % 8) & 1 == 1;
        let pcrs: Vec<_> = (0..8 * size as u32).filter(is_selected).collect();
        if pcrs.iter().any(|pcr| *pcr >= PCR_COUNT) {
            Err(other.into())
        } else {
            Ok((algorithm, pcrs))
        }
    }
}

impl<'a> Quote<'a> {
    /// Reads a quote, or returns what the bytes are instead.
    pub fn read(bytes: &'a [u8]) -> Result<Quote<'a>, String> {
        let (mut rest, mut quote) = (Rest(bytes), Quote::default());
        if rest.number(4)? != GENERATED {
            return Err("no TPM_GENERATED_VALUE".into());
        }
        match rest.number(2)? {
            QUOTE => rest.sized()?,
            kind => return Err(format!("an attestation of type {kind:#x}")),
        };
        quote.nonce = rest.sized()?;
        quote.clock = rest.number(8)?;
        quote.reset_count = rest.number(4)?;
        quote.restart_count = rest.number(4)?;
        quote.is_safe = match rest.number(1)? {
            safe @ 0..=1 => safe == 1,
            safe => return Err(format!("the byte `safe` is {safe}")),
        };
        let _firmware_version = rest.number(8)?;
        for _ in 0..rest.number(4)? {
            quote.selections.push(rest.selection()?);
        }
        quote.digest = rest.sized()?;
        if rest.0.is_empty() { Ok(quote) } else { Err("bytes after the quote".into()) }
    }

    /// The PCRs that it selects, in its order, with the numbers of their algorithms.
    fn selected(&self) -> impl Iterator<Item = (u16, u32)> {
        let all = self.selections.iter();
        all.flat_map(|(algorithm, pcrs)| pcrs.iter().map(|pcr| (*algorithm, *pcr)))
    }

    /// The digest of the selected PCRs after a log, or why there is none. PCR 0 starts at this
    /// locality if the log states none.
    pub fn digest_after(
        &self,
        log: &Log<'_>,
        hash: &Bank,
        locality: u8,
    ) -> Result<Vec<u8>, String> {
        let mut values = Vec::new();
        for (algorithm, pcr) in self.selected() {
            let Some(bank) = BANKS.iter().find(|bank| bank.algorithm == algorithm) else {
                return Err(format!("not supported: the bank of algorithm {algorithm:#04x}"));
            };
            if !log.is_active(bank) {
                return Err(format!("no event has a digest of the bank {}", bank.name));
            }
            let value = replay(log, bank, pcr, locality).map_err(|(event, fault)| {
                format!("{}: PCR {pcr} is undetermined: {} {fault}", bank.name, event.place())
            })?;
            values.extend(value);
        }
        Ok(hash.hash(&values))
    }

    /// The locality at which PCR 0 starts, and the digest of the selected PCRs then. If the log
    /// states none, it is the first one at which the digest is the quote's, else 0.
    fn judged(&self, log: &Log<'_>, hash: &Bank) -> Result<(u8, Vec<u8>), String> {
        let at = |locality| Ok((locality, self.digest_after(log, hash, locality)?));
        let Some(stated) = log.locality() else {
            let found = LOCALITIES.map(at).into_iter().collect::<Result<Vec<_>, String>>()?;
            let agreeing = found.iter().find(|it| it.1 == self.digest);
            return Ok(agreeing.unwrap_or(&found[0]).clone());
        };
        at(stated)
    }

    /// The selected PCRs, those of a bank that follow one another as a range.
    fn listed(&self) -> String {
        let (mut line, mut rest) = (String::new(), self.selected().peekable());
        let mut last = None;
        while let Some((algorithm, first)) = rest.next() {
            let mut end = first;
            while rest.next_if_eq(&(algorithm, end + 1)).is_some() {
                end += 1;
            }
            let name =
                BANKS.iter().find(|bank| bank.algorithm == algorithm).map_or("", |bank| bank.name);
            line += &match last {
                Some(last) if last == algorithm => ", ".to_owned(),
                Some(_) => format!("; {name}: "),
                None => format!("{name}: "),
            };
            line += &if first == end { first.to_string() } else { format!("{first}-{end}") };
            last = Some(algorithm);
        }
        line
    }

    /// The line of the quote itself.
    fn line(&self, name: &str, hash: &Bank) -> String {
        let (nonce, safe) =
            (nonce_text(self.nonce), if self.is_safe { "safe" } else { "not safe" });
        let Quote { clock, reset_count, restart_count, .. } = self;
        let counts = format!("reset count {reset_count}, restart count {restart_count}");
        format!("{name}: hash {}, {nonce}, clock {clock} ms, {safe}, {counts}\n", hash.name)
    }

    fn json_line(
        &self,
        log: &Log<'_>,
        hash: &Bank,
        asked: Option<&[u8]>,
        found: &(u8, Vec<u8>),
    ) -> String {
        let Quote { clock, reset_count, restart_count, is_safe, .. } = self;
        let clock = object!(clock, reset_count, restart_count, safe: is_safe);
        let bank = |(number, pcrs): &(u16, Vec<u32>)| {
            object!(algorithm: algorithm(*number), pcrs: array(pcrs))
        };
        let nonce_agrees =
            asked.map_or("null".to_owned(), |asked| (asked == self.nonce).to_string());
        let digest_agrees = found.1 == self.digest;
        let quote = object!(
            banks: array(self.selections.iter().map(bank)), clock, digest: hex_text(self.digest),
            digest_agrees, hash: text(hash.name), leads_to: hex_text(&found.1),
            nonce: hex_text(self.nonce), nonce_agrees
        );
        let is_other = asked.is_some_and(|asked| asked != self.nonce);
        let failed = [(!digest_agrees, "digest"), (is_other, "nonce")];
        let failed: Vec<_> = failed.iter().filter(|it| it.0).map(|it| text(it.1)).collect();
        let others = self.uncovered(log);
        let others =
            (!others.is_empty()).then(|| object!(bank: "null", pcrs: array(&others)));
        object!(
            agrees: failed.is_empty(), covered: array(self.covered()), failed: array(&failed),
            locality: found.0, log: text(log.name), not_covered: array(others), quote
        ) + "\n"
    }

    /// The selected PCRs by banks, in the order of these.
    fn covered(&self) -> impl Iterator<Item = String> {
        let of = |bank: &Bank| -> Vec<u32> {
            self.selected().filter(|it| it.0 == bank.algorithm).map(|it| it.1).collect()
        };
        let banks = BANKS.iter().map(move |bank| (bank.name, of(bank)));
        let banks = banks.filter(|it| !it.1.is_empty());
        banks.map(|(name, pcrs)| object!(bank: text(name), pcrs: array(pcrs)))
    }

    /// The PCRs that events extend and that the quote doesn't cover.
    fn uncovered(&self, log: &Log<'_>) -> Vec<u32> {
        let covered: BTreeSet<_> = self.selected().map(|it| it.1).collect();
        let extended: BTreeSet<_> = log.measured().map(|event| event.pcr).collect();
        extended.difference(&covered).copied().collect()
    }
}

/// The line of JSON of a log that isn't judged.
fn unjudged_line(log: &Log<'_>, why: &str) -> String {
    let failed = array([text(why)]);
    let name = text(log.name);
    object!(agrees: "null", covered: "null", failed, log: name, not_covered: "null") + "\n"
}

fn nonce_text(nonce: &[u8]) -> String {
    if nonce.is_empty() { "no nonce".to_owned() } else { format!("nonce 0x{}", hex(nonce)) }
}

/// What a run ends with that compares a log with a quote, in a file of this name. So far the run
/// ends as reading the log did.
pub fn ending(
    log: &Log<'_>,
    name: &str,
    bytes: &[u8],
    asked: Option<&[u8]>,
    is_json: bool,
    mut end: Ending,
) -> Ending {
    let unjudged = |why: &str| if is_json { unjudged_line(log, why) } else { String::new() };
    let failed = |status, reason: &str, why: String| Ending {
        status,
        output: unjudged(reason).into(),
        message: format!("uefi_audit: {name}: {why}\n").into(),
    };
    let quote = match Quote::read(bytes) {
        Ok(quote) => quote,
        Err(why) => return failed(MALFORMED, "malformed quote", why),
    };
    let size = quote.digest.len();
    let Some(hash) = BANKS.iter().find(|bank| bank.size == size) else {
        return failed(
            UNJUDGED,
            "unknown hash",
            format!("no hash function here has digests of {size} bytes (--quote-hash)"),
        );
    };
    if end.status == UNJUDGED {
        let is_long = log.algorithms.len() > MAX_ROWS;
        let why = if is_long { "many algorithms" } else { "nothing measured" };
        return Ending { output: unjudged(why).into(), ..end };
    }
    let found = match quote.judged(log, hash) {
        Ok(found) if quote.selected().next().is_some() => found,
        outcome => {
            let reason = match &outcome {
                Ok(_) => "no PCR",
                Err(why) if why.contains("undetermined") => "undetermined",
                Err(_) => "no bank",
            };
            let covers_none = |_| format!("{name}: covers no PCR\n");
            let why = outcome.map_or_else(|why| format!("{}: {why}\n", log.name), covers_none);
            end.message.extend(why.bytes());
            return Ending { status: UNJUDGED, output: unjudged(reason).into(), ..end };
        }
    };
    tell_of_start(log, found.0, &mut end);
    tell_of_ignored(log, &mut end);
    tell_of_uncompared(log, &quote, &mut end);
    let agrees = found.1 == quote.digest;
    let has_its_nonce = asked.is_none_or(|asked| asked == quote.nonce);
    end.status = end.status.max(i32::from(!agrees || !has_its_nonce));
    let output = if is_json {
        quote.json_line(log, hash, asked, &found)
    } else {
        let other = asked.filter(|_| !has_its_nonce);
        let other = other
            .map(|it| format!("{name}: has {}, not {}\n", nonce_text(quote.nonce), nonce_text(it)));
        other.unwrap_or_default()
            + &quote.line(name, hash)
            + &verdict(log, &quote, &found, has_its_nonce)
    };
    Ending { output: output.into(), ..end }
}

/// The line that says whether a log leads to the digest of a quote.
fn verdict(
    log: &Log<'_>,
    quote: &Quote<'_>,
    (locality, found): &(u8, Vec<u8>),
    has_its_nonce: bool,
) -> String {
    let (name, listed) = (log.name, quote.listed());
    let start = format!("(PCR 0 starts at locality {locality})");
    if found == quote.digest {
        let verdict = if has_its_nonce { "agrees:" } else { "differs: the nonce, not" };
        return format!("{name}: {verdict} {listed} {start}\n");
    }
    let digests = [quote.digest, found].map(hex);
    let [quoted, found] = digests.map(|digits| format!("0x{digits}"));
    let digests = format!("the quote has the digest {quoted}, the log leads to {found}");
    format!("{name}: differs: {listed}: {digests} {start}\n")
}

/// Tells of the PCRs that events extend and that a quote doesn't cover.
fn tell_of_uncompared(log: &Log<'_>, quote: &Quote<'_>, end: &mut Ending) {
    let others: Vec<_> = quote.uncovered(log).iter().map(u32::to_string).collect();
    if !others.is_empty() {
        tell(end, log, 0, &format!("not compared: PCR {}, which events extend", others.join(", ")));
    }
}
