//! The call of the toolchain's `strsim` that its `clap` makes. It is written by hand, and isn't proved.

use crate::support::fallible::{FallibleIterator, FallibleVec};
use uefi_formats::AllocError;

/// Returns how similar two texts are by Jaro: from 0 to 1, which texts have that are the same.
pub fn jaro(a: &str, b: &str) -> Result<f64, AllocError> {
    let (a, b): (Vec<char>, Vec<char>) = (a.chars().fallible_collect()?, b.chars().fallible_collect()?);
    let range = (a.len().max(b.len()) / 2).saturating_sub(1);
    let (mut of_a, mut is_taken) = (Vec::new(), Vec::fallible_from_elem(false, b.len())?);
    for (at, c) in a.iter().enumerate() {
        let mut near = at.saturating_sub(range)..b.len().min(at + range + 1);
        if let Some(found) = near.find(|&it| b[it] == *c && !is_taken[it]) {
            is_taken[found] = true;
            of_a.fallible_push(c)?;
        }
    }
    let of_b = b.iter().zip(&is_taken).filter(|(_, taken)| **taken).map(|(c, _)| c);
    let moved = of_a.iter().zip(of_b).filter(|(a, b)| **a != *b).count() / 2;
    let [found, kept, a, b] = [of_a.len(), of_a.len() - moved, a.len(), b.len()].map(|count| count as f64);
    Ok(if found == 0.0 { 0.0 } else { (found / a + found / b + kept / found) / 3.0 })
}
