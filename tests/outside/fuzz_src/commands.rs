//! The commands of the programs: what mutations of their inputs begin with, and what plain Rust and
//! the package in rust/programs expect a run to end with. The names of those of `uefi_list` and what they
//! take after FILE come from the plain [`listings`](crate::listings).

use crate::audit;
use crate::formats::{self, Format};
use crate::input::Input;
use crate::listings::{self, List, ThirdWord};
use crate::program::Ending;
use std::sync::LazyLock;
use uefi_tools::uefi_listing::command::Command as Asked;
use uefi_tools::uefi_listing::listing::Outcome;
use uefi_tools::uefi_listing::run::run;

const USAGE: &[u8] = b"usage: uefi_list COMMAND FILE [ARG]\n";
const OTHER_WORDS: i32 = 2;

/// Which program has a command.
#[derive(Clone, Copy, PartialEq, Eq)]
pub enum Program {
    List,
    Audit,
}

pub struct Command {
    pub program: Program,
    pub name: &'static str,
    pub third_word: ThirdWord,
    /// Whether the command takes two files.
    pub takes_two: bool,
    pub format: &'static Format,
}

pub static COMMANDS: LazyLock<Vec<Command>> = LazyLock::new(|| {
    let list = |&(name, third_word, _): &(&'static str, ThirdWord, List)| {
        let (program, format) = (Program::List, formats::named(name));
        Command { program, name, third_word, takes_two: false, format }
    };
    let audit = |&(name, _): &(&'static str, &[&str])| {
        let (program, third_word) = (Program::Audit, ThirdWord::LastEntry);
        let (takes_two, format) = (audit::takes_two(name), formats::named("audit"));
        Command { program, name, third_word, takes_two, format }
    };
    listings::COMMANDS.iter().map(list).chain(audit::COMMANDS.iter().map(audit)).collect()
});

fn listed(is_refused: bool, output: Vec<u8>) -> Ending {
    Ending { status: is_refused.into(), output, message: Vec::new() }
}

impl Command {
    /// The number that the third word is, if it is a word that the command takes.
    pub fn argument(&self, word: Option<&[u8]>) -> Option<Option<usize>> {
        match (self.third_word, word) {
            (ThirdWord::None, None) | (ThirdWord::LastEntry, Some(b"-")) => Some(None),
            (ThirdWord::Number | ThirdWord::LastEntry, Some(word)) => {
                let digits = Some(word).filter(|word| word.iter().all(u8::is_ascii_digit))?;
                str::from_utf8(digits).ok()?.parse().ok().map(Some)
            }
            _ => None,
        }
    }

    /// What plain Rust expects a run to end with, whose file has this name.
    pub fn expected(&self, input: &Input, file: &str) -> Ending {
        let word = input.third_word.as_deref();
        let argument = self.argument(word);
        if self.program == Program::Audit && (word.is_none() || argument.is_some()) {
            return audit::ending(self.name, input, argument, file);
        }
        let Some(argument) = argument else {
            let usage = if self.program == Program::List { USAGE } else { b"" };
            return Ending { status: OTHER_WORDS, message: usage.into(), output: Vec::new() };
        };
        let mut commands = listings::COMMANDS.iter();
        let (_, _, list) = commands.find(|it| it.0 == self.name).expect("a command of the program");
        let listing = list(&input.bytes, argument);
        let is_refused = listing.is_err();
        listed(is_refused, listing.unwrap_or_else(|name| format!("refused {name}\n")).into())
    }

    /// What a run by the package's listings ends with.
    pub fn of_package(&self, input: &Input) -> Ending {
        let words = [self.name.as_bytes(), b"FILE"].into_iter().chain(input.third_word.as_deref());
        let words = words.map(|word| String::from_utf8(word.into())).collect::<Result<Vec<_>, _>>();
        let Some(asked) = words.ok().and_then(|words| Asked::from_words(&words)) else {
            return Ending { status: OTHER_WORDS, message: USAGE.into(), output: Vec::new() };
        };
        let mut output = Vec::new();
        let outcome = run(&asked, &input.bytes, &mut output).expect("memory");
        listed(outcome == Outcome::Refused, output)
    }
}
