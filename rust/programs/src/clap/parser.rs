//! The walk over the words of a command line.

use super::shown::{joined, similar, unique};
use super::{AllocError, Arg, ArgAction, ArgMatches, Command, Error, ErrorKind, ValueParser};
use crate::support::fallible::FallibleVec;

/// Returns what the words after a command's name say.
pub(super) fn parse<'a>(command: &Command<'a>, words: &'a [String]) -> Result<ArgMatches<'a>, Error> {
    let mut parser = Parser { command, found: ArgMatches::default(), pending: None, filled: 0 };
    let mut words = words.iter();
    while let Some(word) = words.next() {
        let rest = words.as_slice();
        match command.subcommand_named(word) {
            Some(below) if below.name == "help" => return help_of(command, rest),
            Some(it) => return Ok(ArgMatches { below: fallible_vec![(it.name, parse(it, rest)?)]?, ..parser.found }),
            None if word == "--" => words.try_for_each(|word| parser.read_value(word, true))?,
            None if word.len() > 1 && word.starts_with('-') => parser.read_name(word, rest)?,
            None => parser.read_value(word, false)?,
        }
    }
    parser.judge_pending()?;
    parser.judge_all()?;
    Ok(parser.found)
}

/// Fails with the help of the command that the words name below another.
fn help_of<T>(command: &Command<'_>, words: &[String]) -> Result<T, Error> {
    match words.split_first().map(|(name, rest)| (name, command.subcommand_named(name), rest)) {
        None => Err(command.help(ErrorKind::DisplayHelp)?),
        Some((_, Some(below), rest)) => help_of(below, rest),
        Some((name, None, _)) => command.fail(format_args!("unrecognized subcommand '{name}'"), Some(&[])),
    }
}

/// The words of a command while they are read.
struct Parser<'c, 'a> {
    command: &'c Command<'a>,
    found: ArgMatches<'a>,
    /// The argument that was read last and isn't judged yet, as an option that waits for its value.
    pending: Option<(&'c Arg<'a>, Vec<&'a str>)>,
    /// How many positionals take no more words.
    filled: usize,
}

impl<'a> Parser<'_, 'a> {
    /// Reads `--NAME`, `--NAME=VALUE`, or `-N`. What follows it in the word isn't reached: each `-N` prints and ends.
    fn read_name(&mut self, word: &'a str, rest: &'a [String]) -> Result<(), Error> {
        let (name, value) = match word.split_once('=') {
            Some((name, value)) if word.starts_with("--") => (name, Some(value)),
            None if word.starts_with("--") => (word, None),
            _ => (&word[..word.char_indices().nth(2).map_or(word.len(), |(end, _)| end)], None),
        };
        let is_name = |hyphens, it: Option<&str>| it.is_some() && name.strip_prefix(hyphens) == it;
        let is_named = |arg: &&Arg| is_name("--", arg.long) || is_name("-", arg.short);
        let Some(arg) = self.command.args.iter().find(is_named) else {
            return self.fail_for_name(name, rest);
        };
        if let (Some(value), false) = (value, arg.takes_value()) {
            let shown = unique(self.used().chain([arg]))?;
            self.forget_pending()?;
            return self.command.fail(
                format_args!("unexpected value '{value}' for '{arg}' found; no more were expected"),
                Some(&shown),
            );
        }
        self.judge_pending()?;
        if value.is_none() && arg.takes_value() {
            self.pending = Some((arg, Vec::new()));
            return Ok(());
        }
        self.judge(arg, Vec::fallible_from_slice(value.as_slice())?)
    }

    /// Reads a value of the option before it, or of a positional.
    fn read_value(&mut self, word: &'a str, after_hyphens: bool) -> Result<(), Error> {
        match &mut self.pending {
            Some((_, values)) if values.is_empty() && !after_hyphens => return Ok(values.fallible_push(word)?),
            _ => {}
        }
        let Some(arg) = self.command.positionals().nth(self.filled) else {
            return self.fail_for_word(word, after_hyphens);
        };
        self.judge_pending()?;
        self.pending = Some((arg, Vec::fallible_from_slice(&[word])?));
        self.filled += usize::from(arg.action != ArgAction::Append);
        Ok(())
    }

    /// Judges the argument that was read last.
    fn judge_pending(&mut self) -> Result<(), Error> {
        self.pending.take().map_or(Ok(()), |(arg, values)| self.judge(arg, values))
    }

    /// Judges the argument that was read last, before another error.
    fn forget_pending(&mut self) -> Result<(), AllocError> {
        let is_memory = self.judge_pending().is_err_and(|error| error.kind == ErrorKind::OutOfMemory);
        if is_memory { Err(AllocError) } else { Ok(()) }
    }

    /// Judges a use of an argument, and keeps its values.
    fn judge(&mut self, arg: &Arg<'a>, values: Vec<&'a str>) -> Result<(), Error> {
        match arg.action {
            ArgAction::Help => return Err(self.command.help(ErrorKind::DisplayHelp)?),
            ArgAction::Version => {
                let text = fallible_format!("{} {}\n", self.command.name, self.command.version.unwrap_or(""))?;
                return Err(Error { kind: ErrorKind::DisplayVersion, text });
            }
            _ if arg.takes_value() && values.is_empty() => return self.fail_for_none(arg),
            _ => {}
        }
        let place = self.found.used.iter().position(|(used, _)| used.id == arg.id && arg.action != ArgAction::Append);
        if let Some(place) = place {
            self.found.used.remove(place);
            return self.command.fail(format_args!("the argument '{arg}' cannot be used multiple times"), Some(&[]));
        }
        let judged = values.iter().try_for_each(|value| self.judge_value(arg, value));
        match self.found.used.iter_mut().find(|(used, _)| used.id == arg.id) {
            Some((_, all)) => all.fallible_extend_from_slice(&values)?,
            None => self.found.used.fallible_push((*arg, values))?,
        }
        judged
    }

    /// Judges a value.
    fn judge_value(&self, arg: &Arg<'a>, value: &str) -> Result<(), Error> {
        let why = match arg.parser {
            ValueParser::Text => return Ok(()),
            ValueParser::UpTo(most) => match value.parse::<i64>() {
                Ok(number) if (0..=most).contains(&number) => return Ok(()),
                Ok(number) => fallible_format!(": {number} is not in 0..={most}"),
                Err(error) => fallible_format!(": {error}"),
            },
            ValueParser::OneOf(names) if names.contains(&value) => return Ok(()),
            ValueParser::OneOf(_) if value.is_empty() => return self.fail_for_none(arg),
            ValueParser::OneOf(names) => match similar(value, names.iter().copied())?.pop() {
                Some(name) => fallible_format!("{}\n\n  tip: a similar value exists: '{name}'", arg.possible("\n  ")?),
                None => arg.possible("\n  "),
            },
        };
        self.command.fail(format_args!("invalid value '{value}' for '{arg}'{}", why?), None)
    }

    /// Fails for an argument without a value.
    fn fail_for_none(&self, arg: &Arg<'a>) -> Result<(), Error> {
        let values = arg.possible("\n  ")?;
        self.command.fail(format_args!("a value is required for '{arg}' but none was supplied{values}"), None)
    }

    /// Fails for the name of no argument. Tips at what is similar here, or below the subcommands that follow.
    fn fail_for_name(&mut self, name: &str, rest: &[String]) -> Result<(), Error> {
        self.forget_pending()?;
        let (command, long) = (self.command, name.strip_prefix("--"));
        let longs = |of: &Command<'a>| similar(long.unwrap_or(""), of.args.iter().filter_map(|arg| arg.long));
        let (mut tip, mut used) = (String::new(), unique(self.used().filter(|_| long.is_some()))?);
        if let Some(long) = longs(command)?.pop() {
            tip = fallible_format!("\n\n  tip: a similar argument exists: '--{long}'")?;
            used = unique(used.iter().chain(command.args.iter().find(|arg| arg.long == Some(long))))?;
        } else if command.positionals().next().is_some() {
            tip = fallible_format!("\n\n  tip: to pass '{name}' as a value, use '-- {name}'")?;
        }
        for below in rest.iter().filter_map(|word| command.subcommand_named(word)) {
            if let (true, Some(long)) = (tip.is_empty(), longs(below)?.pop()) {
                tip = fallible_format!("\n\n  tip: '{} --{long}' exists", below.name)?;
            }
        }
        command.fail(format_args!("unexpected argument '{name}' found{tip}"), Some(&used))
    }

    /// Fails for a word that no positional takes.
    fn fail_for_word(&mut self, word: &str, after_hyphens: bool) -> Result<(), Error> {
        self.forget_pending()?;
        let command = self.command;
        if after_hyphens && command.subcommand_named(word).is_some() {
            let tip = "exists; to use it, remove the '--' before it";
            return command.fail(
                format_args!("unexpected argument '{word}' found\n\n  tip: subcommand '{word}' {tip}"),
                Some(&[]),
            );
        }
        let similar = similar(word, command.below.iter().map(|below| below.name))?;
        let (what, tip) = match similar.len() {
            _ if command.below.is_empty() => ("unexpected argument", " found"),
            0 => ("unrecognized subcommand", ""),
            1 => ("unrecognized subcommand", "\n\n  tip: a similar subcommand exists: "),
            _ => ("unrecognized subcommand", "\n\n  tip: some similar subcommands exist: "),
        };
        command.fail(format_args!("{what} '{word}'{tip}{}", joined(&similar, "'")?), Some(&[]))
    }

    /// Returns the arguments that were used.
    fn used(&self) -> impl Iterator<Item = &Arg<'a>> + Clone { self.found.used.iter().map(|(arg, _)| arg) }

    /// Judges whether all is used that has to be, and nothing that can't be with something else.
    fn judge_all(&self) -> Result<(), Error> {
        let (command, is_used) = (self.command, |arg: &&Arg| self.found.get_strs(arg.id).is_some());
        if command.required && self.found.used.is_empty() {
            return Err(command.help(ErrorKind::InvalidArguments)?);
        }
        let excludes = |arg: &Arg, other: &Arg| arg.excludes == Some(other.id) || other.excludes == Some(arg.id);
        let needed = |arg: &Arg<'a>| command.args.iter().find(|other| arg.needs == Some(other.id));
        for arg in self.used() {
            if let Some(other) = self.used().find(|other| excludes(arg, other)) {
                let rest = self.used().filter(|it| it.id != other.id);
                let shown = unique(rest.clone().filter_map(needed).filter(|it| !is_used(it)).chain(rest))?;
                return command.fail(format_args!("the argument '{arg}' cannot be used with '{other}'"), Some(&shown));
            }
        }
        let always = command.args.iter().filter(|arg| arg.required);
        let unless = command.args.iter().filter(|arg| arg.unless.is_some_and(|id| self.found.get_strs(id).is_none()));
        let required = always.chain(self.used().filter_map(needed)).chain(unless);
        let missing = unique(required.filter(|arg| !is_used(arg)))?;
        if missing.is_empty() {
            return Ok(());
        }
        let shown = unique(self.used().filter_map(needed).chain(self.used()).chain(&missing))?;
        let mut rows = String::new();
        let of = |is_option| missing.iter().filter(move |arg| arg.long.is_some() == is_option);
        of(true).chain(of(false)).try_for_each(|arg| fallible_write!(rows, "\n  {}", Arg { required: true, ..*arg }))?;
        command.fail(format_args!("the following required arguments were not provided:{rows}"), Some(&shown))
    }
}
