//! Measures readers over the same input.

use std::hint::black_box;
use std::time::{Duration, Instant};

/// The readers take turns for at least this time and this many rounds.
const LEAST_TIME: Duration = Duration::from_secs(2);
const LEAST_ROUNDS: usize = 5;

/// The calls of one reader in a round take about this many seconds, or there is one call.
const ROUND_SECONDS: f64 = 200e-6;

/// A reader, which returns a sum over what it read.
pub type Read = fn(&[u8]) -> u64;

/// Returns the seconds that a call takes, over this many of them.
fn seconds_per_call(calls: usize, read: Read, bytes: &[u8]) -> f64 {
    let start = Instant::now();
    for _ in 0..calls {
        black_box(read(black_box(bytes)));
    }
    start.elapsed().as_secs_f64() / calls as f64
}

/// Measures readers of one name over an input, and returns the seconds that a call of each took in
/// its best round.
///
/// # Panics
///
/// If a reader refuses the input, or two sums differ.
pub fn measure<const N: usize>(reader: &str, bytes: &[u8], readers: [Read; N]) -> [f64; N] {
    let readers = black_box(readers);
    let sums = readers.map(|read| read(bytes));
    assert!(sums[0] != 0 && sums == [sums[0]; N], "{reader}: the sums are {sums:?}");
    let mut calls = 1;
    while seconds_per_call(calls, readers[0], bytes) * (calls as f64) < ROUND_SECONDS {
        calls *= 2;
    }
    let (start, mut rounds, mut least) = (Instant::now(), 0, [f64::INFINITY; N]);
    while rounds < LEAST_ROUNDS || start.elapsed() < LEAST_TIME {
        for (least, read) in least.iter_mut().zip(readers) {
            *least = least.min(seconds_per_call(calls, read, bytes));
        }
        rounds += 1;
    }
    least
}
