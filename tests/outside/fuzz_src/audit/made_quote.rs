//! Quotes of what a log leads to, or of something near it.

use super::NONCE;
use super::log::Log;
use super::quote::Quote;
use super::replay::BANKS;
use crate::random::Random;

/// The magic and the type of a quote.
const HEADER: [u8; 6] = [0xff, 0x54, 0x43, 0x47, 0x80, 0x18];
/// How many bytes a bitmap of PCRs may have; mostly three.
const BITMAPS: [u32; 8] = [3, 3, 3, 3, 4, 2, 1, 0];
/// Lengths of other digests than that of the selected PCRs.
const SIZES: [u64; 8] = [20, 32, 32, 48, 64, 64, 0, 33];

/// Bytes after their size.
fn sized(bytes: &[u8]) -> Vec<u8> {
    [&(bytes.len() as u16).to_be_bytes(), bytes].concat()
}

/// A selection, mostly of a bank and of PCRs that a log's events extend.
fn selection(random: &mut Random, log: &Log<'_>) -> Vec<u8> {
    let algorithms = log.digest_algorithms();
    let algorithm = match random.below(16) {
        0 => random.below(0x30) as u16,
        1..=14 if !algorithms.is_empty() => random.one_of(&algorithms),
        _ => BANKS[random.index(BANKS.len())].algorithm,
    };
    let extended = log.measured().fold(0, |pcrs, event| pcrs | 1 << event.pcr);
    let pcrs = match random.below(8) {
        0 => 0,
        1 => 0xff_ffff,
        2 => 0xff,
        3 => extended,
        4 | 5 => extended & random.below(1 << 24),
        _ => random.below(1 << 24),
    };
    let size = random.one_of(&BITMAPS);
    let bitmap = &(pcrs as u32).to_le_bytes()[..size as usize];
    [&algorithm.to_be_bytes()[..], &[size as u8], bitmap].concat()
}

/// A quote after a log, mostly with the digest of the PCRs that it selects.
pub fn made(random: &mut Random, log: &Log<'_>) -> Vec<u8> {
    let signer_length = random.below(40);
    let signer = sized(&random.bytes(signer_length));
    let nonce = match random.below(4) {
        0 => Vec::new(),
        1 | 2 => NONCE.to_vec(),
        _ => NONCE[..random.index(NONCE.len())].to_vec(),
    };
    let clock =
        [vec![0; 4], random.bytes(4), vec![0; 3], random.bytes(1), vec![0; 3], random.bytes(1)]
            .concat();
    let safe = [random.below(2) as u8];
    let count = random.one_of(&[0_u32, 1, 1, 1, 2, 2, 3, 6]);
    let selections = (0..count).map(|_| selection(random, log)).collect::<Vec<_>>().concat();
    let firmware_version = random.bytes(8);
    let count = count.to_be_bytes();
    let parts = [
        &HEADER[..],
        &signer,
        &sized(&nonce),
        &clock,
        &safe,
        &firmware_version,
        &count,
        &selections,
    ];
    let without = parts.concat();
    let (hash, locality) = (&BANKS[random.index(BANKS.len())], random.one_of(&[0, 0, 3, 4]));
    let bytes = [&*without, &[0, 0]].concat();
    let quote = Quote::read(&bytes).ok().filter(|_| random.below(8) > 0);
    let digest = quote.and_then(|quote| quote.digest_after(log, hash, locality).ok());
    let digest = digest.unwrap_or_else(|| {
        let size = random.one_of(&SIZES);
        random.bytes(size)
    });
    [without, sized(&digest)].concat()
}
