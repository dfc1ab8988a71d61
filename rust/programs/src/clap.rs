//! The calls of the toolchain's `clap` that the programs make: subcommands, options and flags with long names,
//! positionals, the help, and the messages for other command lines, with the names that are similar. It is written by
//! hand, and isn't proved. `tests/command_lines` compares it with the toolchain's.
//!
//! It does less: a command has either subcommands, of which one has to be used, or arguments. An option takes one value
//! a use, and only the last positional takes many. An argument names at most one that it needs, one that can't be used
//! with it, and one without which it is required.

mod parser;
mod shown;

use crate::host::{io::{self, Write as _}, rt::{Eprint, Print}};
use crate::support::fallible::{FallibleString, FallibleVec};
use error::ErrorKind;
use std::{ops::RangeFrom, str::FromStr};
use uefi_formats::AllocError;

/// The kinds of errors.
pub mod error {
    /// Why there are no matches: the help or version is asked for, the arguments are wrong, or an allocation failed.
    #[derive(Clone, Copy, PartialEq, Eq, Debug)]
    pub enum ErrorKind { DisplayHelp, DisplayVersion, InvalidArguments, OutOfMemory }
}

/// Why there are no matches, with the text that says it.
pub struct Error { kind: ErrorKind, text: String }

impl Error {
    /// Returns the kind.
    pub fn kind(&self) -> ErrorKind { self.kind }

    /// Prints the help or the version on standard output, and what is wrong on standard error.
    pub fn print<R: Print + Eprint>(&self, rt: &R) -> io::Result<()> {
        let is_asked_for = matches!(self.kind, ErrorKind::DisplayHelp | ErrorKind::DisplayVersion);
        if is_asked_for { io::writer(rt).write_all(self.text.as_bytes()) } else { rt.tell(self.text.as_bytes()) }
    }
}

impl From<AllocError> for Error {
    fn from(_error: AllocError) -> Error { Error { kind: ErrorKind::OutOfMemory, text: String::new() } }
}

/// What a use of an argument does: it keeps the one value, adds a value to others, sets a flag, or prints and ends.
#[derive(Clone, Copy, PartialEq, Eq, Default)]
pub enum ArgAction { #[default] Set, Append, SetTrue, Help, Version }

/// What a value has to be: any text, a number from 0 to this one, or one of these names.
#[derive(Clone, Copy, Default)]
pub enum ValueParser<'a> { #[default] Text, UpTo(i64), OneOf(&'a [&'a str]) }

impl<'a> From<&'a [&'a str]> for ValueParser<'a> {
    fn from(names: &'a [&'a str]) -> ValueParser<'a> { ValueParser::OneOf(names) }
}

/// `value_parser!(u8)`: the numbers of an unsigned type of up to 32 bits.
macro_rules! value_parser {
    ($number:ty) => { $crate::clap::ValueParser::UpTo(i64::from(<$number>::MAX)) };
}
pub(crate) use value_parser;

/// An argument: an option or a flag if it has a long name, and else a positional.
#[derive(Clone, Copy, Default)]
pub struct Arg<'a> {
    id: &'a str,
    long: Option<&'a str>,
    short: Option<&'a str>,
    value_name: &'a str,
    help: &'a str,
    required: bool,
    action: ArgAction,
    parser: ValueParser<'a>,
    needs: Option<&'a str>,
    excludes: Option<&'a str>,
    unless: Option<&'a str>,
}

impl<'a> Arg<'a> {
    /// Returns a positional with this id.
    pub fn new(id: &'a str) -> Arg<'a> { Arg { id, value_name: id, ..Arg::default() } }
    /// Makes it the option or flag `--LONG`.
    pub fn long(self, long: &'a str) -> Arg<'a> { Arg { long: Some(long), ..self } }
    /// Says how its value is shown.
    pub fn value_name(self, value_name: &'a str) -> Arg<'a> { Arg { value_name, ..self } }
    /// Says what the help has of it.
    pub fn help(self, help: &'a str) -> Arg<'a> { Arg { help, ..self } }
    /// Says whether it has to be used.
    pub fn required(self, required: bool) -> Arg<'a> { Arg { required, ..self } }
    /// Says what a use of it does.
    pub fn action(self, action: ArgAction) -> Arg<'a> { Arg { action, ..self } }
    /// Makes a positional take all words that follow, at least one.
    pub fn num_args(self, _from_one: RangeFrom<usize>) -> Arg<'a> { self.action(ArgAction::Append) }
    /// Says what its values have to be.
    pub fn value_parser(self, parser: impl Into<ValueParser<'a>>) -> Arg<'a> { Arg { parser: parser.into(), ..self } }
    /// Says which argument has to be used with it.
    pub fn requires_arg(self, id: &'a str) -> Result<Arg<'a>, AllocError> { Ok(Arg { needs: Some(id), ..self }) }
    /// Says which argument can't be used with it.
    pub fn conflicts_with(self, id: &'a str) -> Result<Arg<'a>, AllocError> { Ok(Arg { excludes: Some(id), ..self }) }
    /// Says without which argument it has to be used.
    pub fn required_unless_present(self, unless: &'a str) -> Result<Arg<'a>, AllocError> {
        Ok(Arg { unless: Some(unless), ..self })
    }

    /// Returns whether a use has a value.
    fn takes_value(&self) -> bool { matches!(self.action, ArgAction::Set | ArgAction::Append) }

    /// Returns the values that it may have, if it has them by name.
    fn possible(&self, space: &str) -> Result<String, AllocError> {
        let ValueParser::OneOf(names) = self.parser else { return Ok(String::new()) };
        fallible_format!("{space}[possible values: {}]", shown::joined(names, "")?)
    }
}

/// A program, or a subcommand of it.
#[derive(Default)]
pub struct Command<'a> {
    name: &'a str,
    /// The names before its own and its own, of which the first is that of the program's file.
    path: String,
    version: Option<&'a str>,
    about: &'a str,
    args: Vec<Arg<'a>>,
    below: Vec<Command<'a>>,
    required: bool,
}

impl<'a> Command<'a> {
    /// Returns a command without arguments.
    pub fn new(name: &'a str) -> Command<'a> { Command { name, ..Command::default() } }
    /// Says which version `--version` prints.
    pub fn version(self, version: &'a str) -> Command<'a> { Command { version: Some(version), ..self } }
    /// Says what the help has of it.
    pub fn about(self, about: &'a str) -> Command<'a> { Command { about, ..self } }
    /// Says whether it prints the help where no subcommand is used.
    pub fn subcommand_required(self, required: bool) -> Command<'a> { Command { required, ..self } }
    /// Says the same of arguments.
    pub fn arg_required_else_help(self, required: bool) -> Command<'a> { Command { required, ..self } }
    /// Adds arguments.
    pub fn args(mut self, args: Vec<Arg<'a>>) -> Result<Command<'a>, AllocError> {
        self.args.fallible_extend_from_slice(&args).map(|()| self)
    }

    /// Adds a subcommand.
    pub fn subcommand(mut self, command: Command<'a>) -> Result<Command<'a>, AllocError> {
        self.below.fallible_push(command).map(|()| self)
    }

    /// Returns what the words of a command line say, of which the first is the program's file.
    pub fn try_get_matches_from(mut self, words: &'a [String]) -> Result<ArgMatches<'a>, Error> {
        let file = words.first().map_or("", |word| word.trim_end_matches('/')).rsplit('/').next().unwrap_or("");
        self.build(String::fallible_from_str(if file == ".." { "" } else { file })?)?;
        parser::parse(&self, words.get(1..).unwrap_or(&[]))
    }

    /// Adds the flags and the subcommand for the help and the version, also below.
    fn build(&mut self, path: String) -> Result<(), AllocError> {
        let flag = |short, id, action, help| Arg { short: Some(short), action, help, ..Arg::new(id).long(id) };
        self.args.fallible_push(flag("h", "help", ArgAction::Help, "Print help"))?;
        if self.version.is_some() {
            self.args.fallible_push(flag("V", "version", ArgAction::Version, "Print version"))?;
        }
        let space = if path.is_empty() { "" } else { " " };
        for below in &mut self.below {
            below.build(fallible_format!("{path}{space}{}", below.name)?)?;
        }
        if !self.below.is_empty() {
            let topic = Arg::new("COMMAND").num_args(1..).help("Print help for the subcommand(s)");
            let help = Command::new("help").about("Print this message or the help of the given subcommand(s)");
            let path = fallible_format!("{path}{space}help")?;
            self.below.fallible_push(Command { path, ..help.args(fallible_vec![topic]?)? })?;
        }
        self.path = path;
        Ok(())
    }
}

/// The arguments that were used, in the order of their first uses, with their values, and the subcommand.
#[derive(Default)]
pub struct ArgMatches<'a> {
    used: Vec<(Arg<'a>, Vec<&'a str>)>,
    /// In a vector, which fails without memory where a box ends the program.
    below: Vec<(&'a str, ArgMatches<'a>)>,
}

impl<'a> ArgMatches<'a> {
    /// Returns the subcommand that was used.
    pub fn subcommand(&self) -> Option<(&'a str, &ArgMatches<'a>)> { self.below.first().map(|(name, of)| (*name, of)) }
    /// Returns the values of an argument that was used.
    pub fn get_strs(&self, id: &str) -> Option<&[&'a str]> {
        self.used.iter().find(|(arg, _)| arg.id == id).map(|(_, values)| values.as_slice())
    }
    /// Returns the first value of an argument.
    pub fn get_str(&self, id: &str) -> Option<&'a str> { self.get_strs(id)?.first().copied() }
    /// Returns the number that is the first value of an argument, also of `-0`.
    pub fn get_one<T: FromStr>(&self, id: &str) -> Option<T> { self.get_str(id)?.trim_start_matches('-').parse().ok() }
    /// Returns whether a flag is set.
    pub fn get_flag(&self, id: &str) -> bool { self.get_strs(id).is_some() }
}
