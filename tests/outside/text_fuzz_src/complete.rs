//! Right texts that begin with a prefix.

use crate::reader;

/// The most characters that are added: those of a GUID after a comma, and some more.
const MAX_ADDED: usize = 120;
/// The characters that are tried, in this order: first those that end an argument or a part of one.
const TRIED: &str = ")\".:-,0@aABCDEFGHIJKLMNOPQRSTUVWXYZbcdefghijklmnopqrstuvwxyz0123456789_";

/// The offset of the error in a text that isn't right.
fn fault_offset(text: &str) -> Option<usize> {
    reader::read(text).err().map(|fault| fault.at)
}

/// Returns a right text that begins with the prefix, or else how far it came.
pub fn completed(prefix: &str) -> Result<String, String> {
    let mut text = String::from(prefix);
    for _ in 0..MAX_ADDED {
        if fault_offset(&text).is_none() {
            return Ok(text);
        }
        let length = text.len();
        let mut continues = |c: char| {
            text.truncate(length);
            text.push(c);
            fault_offset(&text).is_none_or(|at| at > length)
        };
        if !TRIED.chars().any(&mut continues) {
            break;
        }
    }
    Err(text)
}
