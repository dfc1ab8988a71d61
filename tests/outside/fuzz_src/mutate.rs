//! Mutations of an input.

use crate::audit;
use crate::commands::{Command, Program};
use crate::input::Input;
use crate::listings::ThirdWord;
use crate::random::Random;

/// The most bytes of an input, but for a few, which the program can't read at once.
pub const MAX_LENGTH: usize = 8192;
const MANY_BYTES: usize = 70_000;

/// Numbers at the edge of many formats.
#[rustfmt::skip]
const EDGES: [u64; 18] = [
    0, 1, 2, 0x7f, 0x80, 0x81, 0xfe, 0xff, 0x100, 0x7fff, 0x8000, 0xffff, 0x1_0000, 0x7fff_ffff,
    0xffff_ffff, 1 << 32, 1 << 63, u64::MAX,
];
/// Words that are no number.
#[rustfmt::skip]
const NO_NUMBERS: [&[u8]; 12] = [
    b"", b"-", b"--", b"-1", b"+1", b"1 ", b" 1", b"0x10", b"1_0", b"18446744073709551616",
    b"\xd9\xa3", b"\xff",
];
/// The length of an event of a version 1 log before its data.
const DATA_OFFSET: usize = 32;

pub struct Mutator<'a> {
    pub command: &'a Command,
    /// The inputs of the command that another is spliced with.
    pub pool: &'a [Input],
    pub random: &'a mut Random,
}

impl<'a> Mutator<'a> {
    fn below(&mut self, limit: usize) -> usize {
        self.random.index(limit)
    }

    /// A length, mostly a small one.
    fn length(&mut self, most: usize) -> usize {
        let scale = 1 << self.below(10);
        self.below(most.min(scale) + 1)
    }

    fn member(&mut self) -> &'a Input {
        &self.pool[self.random.index(self.pool.len())]
    }

    /// A member of the pool with a few mutations.
    pub fn input(&mut self) -> Input {
        let mut input = self.member().clone();
        let takes_quote = audit::takes_quote(self.command.name);
        if self.command.takes_two && !takes_quote {
            match self.below(8) {
                0..=3 => std::mem::swap(&mut input.bytes, &mut input.other),
                4 => input.other = self.member().bytes.clone(),
                5 => input.other = input.bytes.clone(),
                _ => (),
            }
        }
        let keeps_log = takes_quote && self.below(2) == 0;
        let mut more = !keeps_log && self.below(32) > 0;
        while more {
            if self.command.program == Program::Audit && self.below(4) == 0 {
                self.give_event_all(&mut input.bytes);
            } else {
                self.replace(&mut input.bytes);
            }
            more = self.below(5) < 2;
        }
        input.bytes.truncate(if self.below(50) == 0 { MANY_BYTES } else { MAX_LENGTH });
        if self.below(4000) == 0 && !input.bytes.is_empty() {
            input.bytes = input.bytes.repeat(MANY_BYTES / input.bytes.len() + 1);
        }
        if !keeps_log {
            self.change_word(&mut input);
        }
        if takes_quote {
            input.other = self.quote(&input);
        }
        input
    }

    /// A quote after the input's log, often a mutated one.
    fn quote(&mut self, input: &Input) -> Vec<u8> {
        let last_entry = self.command.argument(input.third_word.as_deref());
        let mut quote = audit::made_quote(self.random, &input.bytes, last_entry);
        while self.below(3) == 0 {
            self.replace(&mut quote);
        }
        quote
    }

    /// An offset, often one near the start, or the next at which a part of the format's may start.
    fn offset(&mut self, bytes: &[u8]) -> usize {
        let (kind, parts) = (self.below(3), &self.command.format.parts);
        let offset =
            if kind == 0 { self.length(bytes.len()) } else { self.below(bytes.len() + 1) };
        if kind < 2 || parts.is_empty() {
            return offset;
        }
        let first = parts[self.below(parts.len())][0];
        offset + bytes[offset..].iter().position(|byte| *byte == first).unwrap_or(0)
    }

    /// Replaces bytes by others: by as many, by none, or by any number.
    fn replace(&mut self, bytes: &mut Vec<u8>) {
        let (start, parts) = (self.offset(bytes), &self.command.format.parts);
        let new = match self.below(10) {
            0..=3 => self.number_bytes(&bytes[start..], bytes.len()),
            4 | 5 if !parts.is_empty() => parts[self.below(parts.len())].clone(),
            6 | 7 => {
                let from = if self.below(2) == 0 { &*bytes } else { &self.member().bytes };
                let first = self.offset(from);
                from[first..first + self.length(from.len() - first)].to_vec()
            }
            8 if self.below(2) == 0 => vec![self.random.byte(); self.length(64)],
            8 => (0..self.length(64)).map(|_| self.random.byte()).collect(),
            _ => Vec::new(),
        };
        let end = match self.below(8) {
            0..=4 => start + new.len(),
            5 => start,
            6 => start + self.length(bytes.len() - start),
            _ => bytes.len(),
        };
        drop(bytes.splice(start..end.min(bytes.len()), new));
    }

    /// The bytes of a number to take the place of the first.
    fn number_bytes(&mut self, rest: &[u8], length: usize) -> Vec<u8> {
        let width = self.random.one_of(&[1, 2, 4, 8]);
        let mut found = [0; 8];
        rest.iter().zip(&mut found[..width]).for_each(|(byte, copy)| *copy = *byte);
        let lengths = [length, rest.len().saturating_sub(width)];
        let number = self.number(u64::from_le_bytes(found), lengths);
        number.to_le_bytes()[..width].to_vec()
    }

    /// A number at an edge, one near a length, or one near another in sum or in bits.
    fn number(&mut self, other: u64, lengths: [usize; 2]) -> u64 {
        let (near, numbers) = (self.below(65) as u64, &self.command.format.numbers);
        match self.below(8) {
            0 | 1 => self.random.one_of(&EDGES),
            2 | 3 if !numbers.is_empty() => self.random.one_of(numbers),
            4 | 5 => (self.random.one_of(&lengths) as u64 + near / 8).wrapping_sub(4),
            6 => other ^ 1 << (self.below(8) + 8 * self.length(7)),
            _ => other.wrapping_add(near).wrapping_sub(32),
        }
    }

    /// Makes a version 1 log one event, sometimes of another log's type. Sometimes the value of its
    /// variable, or the path of its image, is stated to reach to the end.
    fn give_event_all(&mut self, bytes: &mut [u8]) {
        let Some((head, data)) = bytes.split_at_mut_checked(DATA_OFFSET) else { return };
        head[28..].copy_from_slice(&(data.len() as u32).to_le_bytes());
        if let Some(kind) = self.member().bytes.get(4..8).filter(|_| self.below(8) == 0) {
            head[4..8].copy_from_slice(kind);
        }
        if self.below(2) == 0 && data.len() >= 32 {
            let name_end = 32 + 2 * usize::from(data[16]);
            let size = data.len().saturating_sub(name_end) as u64;
            data[24..32].copy_from_slice(&size.to_le_bytes());
        }
    }

    /// Gives the input another word after FILE, or keeps its own. Often the file is then cut to a
    /// multiple of a number, as maps are.
    fn change_word(&mut self, input: &mut Input) {
        let is_number = self.command.third_word == ThirdWord::Number;
        if self.below(200) == 0 {
            // One word too many, or one that is missing.
            input.third_word = if input.third_word.is_some() { None } else { Some(b"1".to_vec()) };
        } else if self.command.third_word != ThirdWord::None && self.below(4) > 0 {
            let word = self.word(input.bytes.len());
            let stride = str::from_utf8(&word).ok().and_then(|word| word.parse::<usize>().ok());
            if let Some(stride) = stride.filter(|it| is_number && (1..=200).contains(it))
                && self.below(4) > 0
            {
                input.bytes.truncate(input.bytes.len() / stride * stride);
            }
            input.third_word = Some(word);
        }
    }

    /// A word for a file of this length.
    fn word(&mut self, length: usize) -> Vec<u8> {
        let is_number = self.command.third_word == ThirdWord::Number;
        let number = match self.below(10) {
            0 | 1 => length,
            2 | 3 => self.below(length + 2),
            4 => length / (1 + self.below(12)),
            5 if is_number => 8 * self.below(16),
            5 => return b"-".to_vec(),
            6 => return self.random.one_of(&NO_NUMBERS).to_vec(),
            7 => return format!("00{}", self.below(length + 2)).into(),
            _ => return self.number(length as u64, [length; 2]).to_string().into(),
        };
        number.to_string().into()
    }
}
