// @generated from proved source. It is not edited.

//! Tests that are rows of a text file: a call, its input, what is wanted of it, and where that
//! comes from.
//!
//! ```text
//! # Serial ports. A line that begins with '#' is a comment.
//! name | Parity::EVEN | Parity(2) | UEFI 2.10, 10.3.4.16
//! uart | 08 02 | Uart { data_bits: 8, parity: Parity::EVEN } | UEFI 2.10, 10.3.4.16
//! ```
//!
//! A row is one line of four parts with ` | ` between them. A program answers the rows: it has a
//! `match` over the calls, and a file of rows in its folder `data`, which its `args` name.
//!
//! What is wanted is written as Rust has the value, which is mostly as `Debug` prints it:
//!
//! - A number may be `0x1f`.
//! - Bytes may be `b"abc\0\xff"`, with the escapes `\0`, `\n`, `\"`, `\\` and `\x` of two digits.
//! - The digits of `x"7fff 0400"` may have spaces between them.
//! - A name that a row with the call `name` has as its input stands for what is wanted of that row,
//!   in the rows below it.
//!
//! Each row is answered with an allocator that grants no request, then one, and so on. While a
//! request is refused the call has to say that memory ran out. Once none is, the answer has to be
//! what is wanted.

pub use self::program::answered;
pub use self::sets::Sets;
pub use self::table::{Judged, each_row};
pub use self::texts::{hex_digits, hex_pair_row, hex_row, quoted};

mod names;
mod program;
mod sets;
mod shown;
mod table;
#[cfg(test)]
mod tests;
mod texts;
