// @generated from proved source. It is not edited.

//! The words of the command line.

/// What the program is asked for.
#[derive(Clone, Copy, Debug)]
pub enum Command {
    /// `list DIR`: the boot options of a folder of variables.
    List,
    /// `option FILE`: the boot option that the file is.
    Option,
    /// `text FILE`: the device path that is a prefix of the file, as text.
    Text,
    /// `path TEXT`: the bytes of the device path of this text.
    Path,
}

/// The form of what is printed.
#[derive(Clone, Copy, Debug)]
pub enum Form {
    /// Lines for a reader.
    Lines,
    /// `--json`: objects of JSON (RFC 8259), one a line.
    Json,
}

/// A command, the form of what it prints, and what it is over: DIR, FILE or TEXT.
#[derive(Clone, Copy, Debug)]
pub struct Request<'a> {
    /// The command.
    pub command: Command,
    /// The form.
    pub form: Form,
    /// DIR, FILE or TEXT.
    pub operand: &'a str,
}

impl<'a> Request<'a> {
    /// Returns what the words after the program's name ask for, or `None` if they ask for nothing.
    pub fn from_words(words: &'a [String]) -> Option<Request<'a>> {
        match words {
            [name, operand] => Some(Request {
                command: command_named(name.as_str())?,
                form: Form::Lines,
                operand: operand.as_str(),
            }),
            [name, option, operand] if is_json(option.as_str()) => Some(Request {
                command: command_named(name.as_str())?,
                form: Form::Json,
                operand: operand.as_str(),
            }),
            _ => None,
        }
    }
}

/// Returns whether an option is `--json`.
fn is_json(option: &str) -> bool {
    option == "--json"
}

/// Returns the command of this name.
fn command_named(name: &str) -> Option<Command> {
    match name {
        "list" => Some(Command::List),
        "option" => Some(Command::Option),
        "text" => Some(Command::Text),
        "path" => Some(Command::Path),
        _ => None,
    }
}
