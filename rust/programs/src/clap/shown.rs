//! What is shown of commands and arguments: the usage, the help, and what is wrong with a command line.

use super::{AllocError, Arg, ArgAction, Command, Error, ErrorKind};
use crate::{strsim::jaro, support::fallible::{FallibleIterator, FallibleString, FallibleVec}};
use std::fmt;

/// Writes the argument as the usage has it, in brackets if it may be left out.
impl fmt::Display for Arg<'_> {
    fn fmt(&self, f: &mut fmt::Formatter<'_>) -> fmt::Result {
        let (name, more) = (self.value_name, if self.action == ArgAction::Append { "..." } else { "" });
        match self.long {
            Some(long) if self.takes_value() => write!(f, "--{long} <{name}>"),
            Some(long) => write!(f, "--{long}"),
            None if self.required => write!(f, "<{name}>{more}"),
            None => write!(f, "[{name}]{more}"),
        }
    }
}

impl<'a> Command<'a> {
    /// Returns the positionals.
    pub(super) fn positionals(&self) -> impl Iterator<Item = &Arg<'a>> {
        self.args.iter().filter(|arg| arg.long.is_none())
    }

    /// Returns the subcommand of this name.
    pub(super) fn subcommand_named(&self, name: &str) -> Option<&Command<'a>> {
        self.below.iter().find(|below| below.name == name)
    }

    /// Returns the usage: what is required and what else is to be shown, or all there is.
    fn usage(&self, shown: &[Arg<'a>]) -> Result<String, AllocError> {
        let is_optional = |arg: &Arg| arg.long.is_some() && arg.short.is_none() && !arg.required;
        let options = if shown.is_empty() && self.args.iter().any(is_optional) { " [OPTIONS]" } else { "" };
        let name = if self.path.is_empty() { self.name } else { &self.path };
        let mut text = fallible_format!("Usage: {name}{options}")?;
        let shown = unique(self.args.iter().filter(|arg| arg.required).chain(shown))?;
        let is_shown = |arg: &Arg| shown.iter().any(|it| it.id == arg.id);
        let positionals = self.positionals().map(|arg| Arg { required: is_shown(arg), ..*arg });
        let mut all = shown.iter().filter(|arg| arg.long.is_some()).copied().chain(positionals);
        all.try_for_each(|arg| fallible_write!(text, " {arg}"))?;
        text.fallible_push_str(if self.below.is_empty() { "" } else { " <COMMAND>" })?;
        Ok(text)
    }

    /// Returns the help.
    pub(super) fn help(&self, kind: ErrorKind) -> Result<Error, AllocError> {
        let mut text = fallible_format!("{}\n\n{}\n", self.about, self.usage(&[])?)?;
        let mut tables = [("Commands", Vec::new()), ("Arguments", Vec::new()), ("Options", Vec::new())];
        self.below.iter().try_for_each(|below| {
            tables[0].1.fallible_push((fallible_format!("{}", below.name)?, below.about, String::new()))
        })?;
        for arg in &self.args {
            let space = if arg.long.is_some() { "    " } else { "" };
            let with_short = |short| fallible_format!("-{short}, {arg}");
            let left = arg.short.map_or_else(|| fallible_format!("{space}{arg}"), with_short)?;
            tables[1 + usize::from(arg.long.is_some())].1.fallible_push((left, arg.help, arg.possible(" ")?))?;
        }
        let mut full = tables.iter().filter(|(_, rows)| !rows.is_empty());
        full.try_for_each(|(title, rows)| push_table(&mut text, title, rows))?;
        Ok(Error { kind, text })
    }

    /// Fails with what is wrong, and the usage if some of it is to be shown.
    pub(super) fn fail<T>(&self, wrong: fmt::Arguments<'_>, shown: Option<&[Arg<'a>]>) -> Result<T, Error> {
        let usage = shown.map_or(Ok(String::new()), |shown| fallible_format!("\n\n{}", self.usage(shown)?))?;
        let has_help = self.args.iter().any(|arg| arg.action == ArgAction::Help);
        let hint = if has_help { "\n\nFor more information, try '--help'." } else { "" };
        Err(Error { kind: ErrorKind::InvalidArguments, text: fallible_format!("error: {wrong}{usage}{hint}\n")? })
    }
}

/// Appends a table of the help: of each row what is shown, what it is, and the values that it may have.
fn push_table(text: &mut String, title: &str, rows: &[(String, &str, String)]) -> Result<(), AllocError> {
    fallible_write!(text, "\n{title}:\n")?;
    let width = rows.iter().map(|(left, ..)| left.chars().count()).max().unwrap_or(0);
    rows.iter().try_for_each(|(left, help, values)| fallible_writeln!(text, "  {left:width$}  {help}{values}"))
}

/// Returns the names in quotes, with commas between them.
pub(super) fn joined(names: &[&str], quote: &str) -> Result<String, AllocError> {
    let mut text = String::new();
    for name in names {
        fallible_write!(text, "{}{quote}{name}{quote}", if text.is_empty() { "" } else { ", " })?;
    }
    Ok(text)
}

/// Returns the arguments, each once.
pub(super) fn unique<'c, 'a: 'c>(args: impl Iterator<Item = &'c Arg<'a>>) -> Result<Vec<Arg<'a>>, AllocError> {
    let mut all: Vec<Arg> = Vec::new();
    for arg in args {
        if all.iter().all(|it| it.id != arg.id) {
            all.fallible_push(*arg)?;
        }
    }
    Ok(all)
}

/// Returns those of the names that are close to the word, the closest last.
pub(super) fn similar<'a>(word: &str, names: impl Iterator<Item = &'a str>) -> Result<Vec<&'a str>, AllocError> {
    let mut found: Vec<(f64, &str)> = Vec::new();
    for name in names {
        let score = jaro(word, name)?;
        if score > 0.7 {
            found.try_reserve(1)?;
            found.insert(found.partition_point(|(other, _)| *other <= score), (score, name));
        }
    }
    found.into_iter().map(|(_, name)| name).fallible_collect()
}
