//! Mutated quotes, read by the package and by a plain reader: both return the same quote, or name
//! the same fault.

use crate::support::test::Fail;
use crate::test_support::{bytes, holds};
use std::collections::BTreeMap;
use std::mem::discriminant;
use uefi_formats::pcr::{ClockInfo, Quote, QuoteError};

// A part of the samples, which are private to their tests.
#[allow(dead_code, clippy::duplicate_mod)]
#[path = "quote_tests/tests/samples.rs"]
mod samples;

use samples::{
    CERTIFY, ECC_NO_NONCE, ECC_THREE_BANKS, GETTIME, RSA_NO_NONCE, RSA_ONE_BANK, RSA_TWO_BANKS,
};

/// What mutations begin with.
const SEEDS: [&str; 7] =
    [RSA_ONE_BANK, RSA_NO_NONCE, RSA_TWO_BANKS, ECC_NO_NONCE, ECC_THREE_BANKS, CERTIFY, GETTIME];
// Where it isn't at home, an emulator runs it.
const MUTANTS: usize = if cfg!(target_arch = "x86_64") { 1_000_000 } else { 100_000 };
/// The least number of mutants that end in each way: as a quote, or with each fault.
const LEAST: usize = MUTANTS / 1_000;
/// Bytes at an edge: of sizes, counts, `safe`, and signs.
const EDGES: [u8; 9] = [0, 1, 2, 3, 4, 5, 0x7f, 0x80, 0xff];

/// The fields of a quote.
#[derive(PartialEq, Debug)]
struct Fields {
    qualified_signer: Vec<u8>,
    extra_data: Vec<u8>,
    clock_info: ClockInfo,
    firmware_version: u64,
    /// The algorithm and the PCRs of each selection.
    selections: Vec<(u16, Vec<u32>)>,
    pcr_digest: Vec<u8>,
}

/// Bytes of which the first ones are taken.
struct Cursor<'a>(&'a [u8]);

impl<'a> Cursor<'a> {
    fn take(&mut self, count: usize) -> Result<&'a [u8], QuoteError> {
        let (taken, rest) = self.0.split_at_checked(count).ok_or(QuoteError::TooShort)?;
        self.0 = rest;
        Ok(taken)
    }

    fn number(&mut self, width: usize) -> Result<u64, QuoteError> {
        Ok(self.take(width)?.iter().fold(0, |number, byte| number << 8 | u64::from(*byte)))
    }

    fn sized(&mut self) -> Result<Vec<u8>, QuoteError> {
        let size = self.number(2)?;
        Ok(self.take(size as usize)?.to_vec())
    }

    fn selection(&mut self) -> Result<(u16, Vec<u32>), QuoteError> {
        let algorithm = self.number(2)? as u16;
        let size = self.number(1)? as usize;
        if size > 4 {
            return Err(QuoteError::Selection);
        }
        let bitmap = self.take(size)?;
        let is_set = |pcr: &u32| bitmap[*pcr as usize / 8] & 1 << (pcr % 8) != 0;
        let pcrs: Vec<u32> = (0..8 * size as u32).filter(is_set).collect();
        if pcrs.iter().any(|pcr| *pcr > 23) {
            return Err(QuoteError::Selection);
        }
        Ok((algorithm, pcrs))
    }

    fn clock_info(&mut self) -> Result<ClockInfo, QuoteError> {
        let clock = self.number(8)?;
        let (reset_count, restart_count) = (self.number(4)? as u32, self.number(4)? as u32);
        let safe = match self.number(1)? {
            0 => false,
            1 => true,
            other => return Err(QuoteError::Safe(other as u8)),
        };
        Ok(ClockInfo { clock, reset_count, restart_count, safe })
    }
}

/// What the plain reader makes of the bytes.
fn plain(bytes: &[u8]) -> Result<Fields, QuoteError> {
    let mut rest = Cursor(bytes);
    if rest.number(4)? != 0xff54_4347 {
        return Err(QuoteError::NotGenerated);
    }
    let kind = rest.number(2)? as u16;
    if kind != 0x8018 {
        return Err(QuoteError::NotQuote(kind));
    }
    let (qualified_signer, extra_data) = (rest.sized()?, rest.sized()?);
    let (clock_info, firmware_version) = (rest.clock_info()?, rest.number(8)?);
    let count = rest.number(4)?;
    let selections = (0..count).map(|_| rest.selection()).collect::<Result<_, _>>()?;
    let pcr_digest = rest.sized()?;
    if !rest.0.is_empty() {
        return Err(QuoteError::LeftOver);
    }
    Ok(Fields { qualified_signer, extra_data, clock_info, firmware_version, selections, pcr_digest })
}

/// What the package makes of them.
fn of_package(bytes: &[u8]) -> Result<Fields, QuoteError> {
    let quote = Quote::try_from(bytes)?;
    let pcrs = |it: uefi_formats::pcr::PcrSelection<'_>| it.pcrs().map(|pcr| pcr.0).collect();
    Ok(Fields {
        qualified_signer: quote.qualified_signer().to_vec(),
        extra_data: quote.extra_data().to_vec(),
        clock_info: quote.clock_info(),
        firmware_version: quote.firmware_version(),
        selections: quote.pcr_selections().map(|it| (it.algorithm().0, pcrs(it))).collect(),
        pcr_digest: quote.pcr_digest().to_vec(),
    })
}

/// The numbers that follow from a seed other than 0 (xorshift64*).
struct Random(u64);

impl Random {
    fn next(&mut self) -> u64 {
        self.0 ^= self.0 >> 12;
        self.0 ^= self.0 << 25;
        self.0 ^= self.0 >> 27;
        self.0.wrapping_mul(0x2545_f491_4f6c_dd1d)
    }

    fn index(&mut self, length: usize) -> usize {
        (self.next() >> 32) as usize % length
    }

    fn byte(&mut self) -> u8 {
        self.next() as u8
    }
}

/// Changes bytes in one way: another byte, a bit, a byte more or less, a part twice, or an end.
fn mutate(message: &mut Vec<u8>, random: &mut Random) {
    if message.is_empty() {
        return message.push(random.byte());
    }
    let at = random.index(message.len());
    match random.index(7) {
        0 => message[at] = random.byte(),
        1 => message[at] = EDGES[random.index(EDGES.len())],
        2 => message[at] ^= 1 << random.index(8),
        3 => message.insert(at, random.byte()),
        4 => drop(message.remove(at)),
        5 => {
            let part = message[at..message.len().min(at + 8)].to_vec();
            message.splice(at..at, part);
        }
        _ => message.truncate(at),
    }
}

#[test]
fn mutated_quotes_are_read_as_by_a_plain_reader() -> Result<(), Fail> {
    let seeds = SEEDS.iter().map(|it| bytes(it)).collect::<Result<Vec<_>, _>>()?;
    let (mut random, mut endings) = (Random(7), BTreeMap::new());
    for _ in 0..MUTANTS {
        let mut message = seeds[random.index(seeds.len())].clone();
        for _ in 0..random.index(4) {
            mutate(&mut message, &mut random);
        }
        let (expected, found) = (plain(&message), of_package(&message));
        holds(&format!("{message:02x?}: {expected:?}, {found:?}"), expected == found)?;
        let ending = expected.err().map(|error| format!("{:?}", discriminant(&error)));
        *endings.entry(ending).or_insert(0) += 1;
    }
    holds("a quote and six faults", endings.len() == 7)?;
    holds("each often", endings.values().all(|count| *count >= LEAST))
}
